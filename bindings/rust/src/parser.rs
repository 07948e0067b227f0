//! Reading: records are fetched in batches and handed out one by one.
use crate::record::{command_of, header_of};
use crate::{raw, Changes, Command, Header, IdCode, ParseError};
use std::cell::Cell;
use std::io;
use std::num::ParseIntError;

/// Records a batch: enough that a call's cost is small, few enough to stay in the nearest cache.
const BATCH: usize = 256;

/// Records at a time where only the cursor behind them is wanted.
const STEP: usize = 16;

/// VCD parser.
///
/// Reads bytes that are wholly in memory and acts as an iterator of [`Command`]s. It goes on after an error, as the crate's does.
///
/// ```
/// use vcd_proved::{Command, Parser, Refusal};
/// let mut parser = Parser::new(&b"#5\n1! q"[..]);
/// assert_eq!(parser.next().unwrap().unwrap(), Command::Timestamp(5));
/// let command = parser.next().unwrap().unwrap();
/// assert_eq!(format!("{command:?} at {}", parser.line()), "ChangeScalar(IdCode(0), V1) at 2");
/// let refusal = Refusal::of(&parser.next().unwrap().unwrap_err()).unwrap();
/// assert_eq!((refusal.number(), refusal.name()), (3, "UnexpectedCharacter"));
/// assert!(parser.next().is_none());
/// ```
pub struct Parser<R> {
    input: R,
    /// What is read ahead: `count` records, of which `taken` are handed out; how reading goes on behind them, and the cursor there.
    records: Vec<u64>,
    count: usize,
    taken: usize,
    status: u64,
    ahead: raw::Cursor,
    /// A cursor, and how many of the records lie before it: at most those that are handed out. It is moved up when it is needed.
    behind: Cell<(raw::Cursor, usize)>,
    /// Nothing can be read any more.
    over: bool,
}

impl<R: AsRef<[u8]>> Parser<R> {
    /// Creates a parser of a byte slice, or of whatever holds one.
    pub fn new(input: R) -> Parser<R> {
        Parser {
            input,
            records: vec![0; BATCH * raw::RECORD],
            count: 0,
            taken: 0,
            status: raw::OK,
            ahead: raw::CURSOR_START,
            behind: Cell::new((raw::CURSOR_START, 0)),
            over: false,
        }
    }

    /// Get the current line number.
    ///
    /// The line number is 1-indexed (first line is numbered 1).
    pub fn line(&self) -> u64 {
        self.cursor()[1]
    }

    /// Reads the next command, as the iterator does.
    pub fn next_command(&mut self) -> Option<io::Result<Command>> {
        if self.over {
            return None;
        }
        if self.taken == self.count && self.status == raw::OK {
            self.fetch();
        }
        if self.taken == self.count {
            return self.end();
        }
        let at = self.taken * raw::RECORD;
        self.taken += 1;
        let command = command_of(self.input.as_ref(), &self.records[at..at + raw::RECORD]);
        Some(command.ok_or_else(|| self.error(raw::BAD_PLACE, self.ahead, self.ahead).into()))
    }

    /// Parses the header of a VCD file into a `Header` struct.
    ///
    /// After returning, the stream has been read just past the `$enddefinitions` command and can be iterated to obtain the data.
    /// Unlike the crate's, it takes at most 4,096 items and 64 open scopes.
    pub fn parse_header(&mut self) -> io::Result<Header> {
        let from = self.cursor();
        let (mut to, mut head) = (from, [0; raw::HEAD]);
        let mut rows = vec![0; raw::MOST_ROWS * raw::ROW];
        let status = raw::header(self.input.as_ref(), &mut to, &mut rows, &mut head);
        let header = match status {
            raw::OK => header_of(self.input.as_ref(), &head, &rows).ok_or(raw::BAD_PLACE),
            refusal => Err(refusal),
        };
        self.stand_at(to);
        header.map_err(|refusal| self.error(refusal, from, to).into())
    }

    /// Lists the changes of an id code from where the parser stands, which stays there. `since` is the last timestamp before that, or
    /// none; a change has it until another is read. Rows are fetched by pages, so that there may be any number of them.
    ///
    /// ```
    /// use vcd_proved::{IdCode, Parser};
    /// let parser = Parser::new(&b"0! #5 1! 1\" 0! "[..]);
    /// let changes: Vec<_> = parser.changes(IdCode::FIRST, None).map(|c| c.unwrap()).collect();
    /// let told: Vec<_> = changes.iter().map(|c| (c.time, c.value)).collect();
    /// assert_eq!(told, [(None, &b"0"[..]), (Some(5), b"1"), (Some(5), b"0")]);
    /// ```
    pub fn changes(&self, code: IdCode, since: Option<u64>) -> Changes<'_> {
        Changes::new(self.input.as_ref(), self.cursor(), code, since)
    }

    /// The next batch.
    fn fetch(&mut self) {
        let mut count = 0;
        self.stand_at(self.ahead);
        self.status = raw::read(self.input.as_ref(), &mut self.ahead, &mut self.records, &mut count);
        self.count = count as usize;
    }

    /// How reading ended behind the batch.
    fn end(&mut self) -> Option<io::Result<Command>> {
        let (status, from) = (self.status, self.cursor());
        self.stand_at(self.ahead);
        self.over = status == raw::BAD_PLACE;
        match status {
            raw::OK | raw::DONE => None,
            refusal => Some(Err(self.error(refusal, from, self.ahead).into())),
        }
    }

    /// Forgets what was read ahead.
    fn stand_at(&mut self, cursor: raw::Cursor) {
        self.ahead = cursor;
        self.behind.set((cursor, 0));
        self.count = 0;
        self.taken = 0;
        self.status = raw::OK;
    }

    /// The cursor behind the last command that was handed out, by reading again the records of the batch that it has not passed.
    fn cursor(&self) -> raw::Cursor {
        let (mut cursor, mut passed) = self.behind.get();
        let mut records = [0; STEP * raw::RECORD];
        while passed < self.taken {
            let (step, mut count) = (STEP.min(self.taken - passed), 0);
            let status = raw::read(self.input.as_ref(), &mut cursor, &mut records[..step * raw::RECORD], &mut count);
            if status != raw::OK {
                break;
            }
            passed += step;
        }
        self.behind.set((cursor, passed));
        cursor
    }

    fn error(&self, refusal: u64, from: raw::Cursor, to: raw::Cursor) -> ParseError {
        parse_error(self.input.as_ref(), refusal, from, to)
    }
}

/// The refusal of what was read between two cursors.
pub(crate) fn parse_error(input: &[u8], refusal: u64, from: raw::Cursor, to: raw::Cursor) -> ParseError {
    ParseError::new(refusal.into(), to[1], || int_error(refused_command(input, from)))
}

impl<R: AsRef<[u8]>> Iterator for Parser<R> {
    type Item = Result<Command, io::Error>;
    fn next(&mut self) -> Option<Result<Command, io::Error>> {
        self.next_command()
    }
}

/// The bytes read of the first command from a cursor on that is refused.
fn refused_command(input: &[u8], mut cursor: raw::Cursor) -> &[u8] {
    let mut record = [0; raw::RECORD];
    loop {
        let from = cursor[0] as usize;
        if raw::next(input, &mut cursor, &mut record) != raw::OK {
            return input.get(from..cursor[0] as usize).unwrap_or(&[]);
        }
    }
}

/// Why a command's number was none: std's own judgement of its token, the last that was read, which is what the crate answers. A
/// timescale's quantity was empty, since up to eight digits are always a number.
fn int_error(command: &[u8]) -> ParseIntError {
    let blank = |c| matches!(c, ' ' | '\n' | '\r' | '\t');
    let text = String::from_utf8_lossy(command);
    let text = text.trim_matches(blank);
    let error = match text.strip_prefix('#') {
        Some(time) => time.trim_start_matches(blank).parse::<u64>().err(),
        None if text.trim_start_matches('$').trim_start_matches(blank).starts_with("timescale") => None,
        None => text.rsplit(blank).next().and_then(|width| width.parse::<u32>().err()),
    };
    error.unwrap_or_else(|| "".parse::<u32>().expect_err("empty"))
}
