//! Listing: the changes of one id code, fetched by pages and handed out one by one.
use crate::parser::parse_error;
use crate::record::bytes_at;
use crate::{raw, IdCode};
use std::io;

/// Rows a page.
const PAGE: usize = 256;

/// What a change is of.
#[derive(Debug, Copy, Clone, PartialEq, Eq, Hash)]
pub enum ChangeKind {
    /// A scalar: one value.
    Scalar,
    /// A vector: values, as read.
    Vector,
    /// A real's text.
    Real,
    /// A string.
    String,
}

/// A change of a variable.
#[derive(Debug, Copy, Clone, PartialEq, Eq, Hash)]
pub struct Change<'a> {
    /// The last timestamp before it, or none.
    pub time: Option<u64>,
    /// The line just after it.
    pub line: u64,
    /// What it is a change of.
    pub kind: ChangeKind,
    /// Its value's bytes, as they stand in the input.
    pub value: &'a [u8],
}

/// The changes of one id code up to the end, or the first error, after which there are no more. See [`crate::Parser::changes`].
pub struct Changes<'a> {
    input: &'a [u8],
    code: IdCode,
    /// A page: `count` rows, of which `taken` are handed out; where it was listed from, and how it ended.
    rows: Vec<u64>,
    count: usize,
    taken: usize,
    from: raw::Cursor,
    status: u64,
    /// Where the next page begins, and the last time before it.
    cursor: raw::Cursor,
    since: raw::Since,
}

impl<'a> Changes<'a> {
    pub(crate) fn new(input: &'a [u8], cursor: raw::Cursor, code: IdCode, since: Option<u64>) -> Changes<'a> {
        Changes {
            input,
            code,
            rows: vec![0; PAGE * raw::CHANGE],
            count: 0,
            taken: 0,
            from: cursor,
            status: raw::LIST_FULL,
            cursor,
            since: since.map_or(raw::SINCE_START, |time| [1, time]),
        }
    }

    /// The next page.
    fn fetch(&mut self) {
        let (mut count, code) = (0, self.code.0);
        self.from = self.cursor;
        self.status = raw::list_on(self.input, &mut self.cursor, &mut self.since, code, &mut self.rows, &mut count);
        self.count = count as usize;
        self.taken = 0;
    }

    fn error(&self, refusal: u64) -> io::Error {
        parse_error(self.input, refusal, self.from, self.cursor).into()
    }
}

impl<'a> Iterator for Changes<'a> {
    type Item = io::Result<Change<'a>>;
    fn next(&mut self) -> Option<io::Result<Change<'a>>> {
        if self.taken == self.count && self.status == raw::LIST_FULL {
            self.fetch();
        }
        if self.taken < self.count {
            let at = self.taken * raw::CHANGE;
            self.taken += 1;
            let change = change_of(self.input, &self.rows[at..at + raw::CHANGE]);
            return Some(change.ok_or_else(|| self.error(raw::BAD_PLACE)));
        }
        match std::mem::replace(&mut self.status, raw::OK) {
            raw::OK => None,
            refusal => Some(Err(self.error(refusal))),
        }
    }
}

fn change_of<'a>(input: &'a [u8], row: &[u64]) -> Option<Change<'a>> {
    let [timed, time, line, kind, start, len] = raw::Change::try_from(row).ok()?;
    let kind = match kind {
        1 => ChangeKind::Scalar,
        2 => ChangeKind::Vector,
        3 => ChangeKind::Real,
        4 => ChangeKind::String,
        _ => return None,
    };
    Some(Change { time: (timed == 1).then_some(time), line, kind, value: bytes_at(input, start, len)? })
}
