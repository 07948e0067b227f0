//! A header's call: what it keeps and the words of a table, good or bad (docs/ABI.md has the words).
use crate::script::{Call, State, Text, SCOPES, UNITS, VARS};
use crate::write::{bytes_at, perform, text_of, Wrote};
use vcd::ReferenceIndex;

// page: a header has no more rows and no deeper scopes than these.
pub const MOST_ROWS: u64 = 4096;
const MOST_SCOPES: usize = 64;
pub const ROW: usize = 10;
pub const TOP: u64 = u64::MAX;

/// A head's ten words (count of rows, date, version, timescale), and the table's.
pub struct Table {
    head: Vec<u64>,
    words: Vec<u64>,
}

/// A row: its parent, and the call that writes it.
struct Row {
    parent: u64,
    call: Call,
}

impl Table {
    pub fn new(mut numbers: Vec<u64>) -> Table {
        let words = numbers.split_off(ROW);
        Table { head: numbers, words }
    }

    /// What is kept, as the calls that write it.
    fn kept(&self) -> Vec<Call> {
        let text = |at: usize| Text { start: self.head[at + 1], len: self.head[at + 2] };
        let date = (self.head[1] == 1).then(|| Call::Date(text(1)));
        let version = (self.head[4] == 1).then(|| Call::Version(text(4)));
        let timescale =
            (self.head[7] == 1).then(|| Call::Timescale(self.head[8] as u32, UNITS[self.head[9] as usize]));
        [date, version, timescale].into_iter().flatten().collect()
    }

    /// The rows asked for, none where words are no row or the table has ended; of those behind its end only the first.
    fn rows(&self) -> Vec<Option<Row>> {
        let whole = self.words.len() / ROW;
        let asked = self.head[0].min(whole as u64 + 1) as usize;
        (0..asked).map(|n| self.words.get(n * ROW..(n + 1) * ROW).and_then(row)).collect()
    }
}

fn row(words: &[u64]) -> Option<Row> {
    let text = Text { start: words[5], len: words[6] };
    let plain = [3, 4, 7, 8, 9].iter().all(|n| words[*n] == 0);
    let call = match words[0] {
        1 if plain => Call::ScopeDef(*SCOPES.get(words[2] as usize)?, text),
        2 => {
            let index = index(words[7], words[8], words[9])?;
            let width = u32::try_from(words[3]).ok()?;
            Call::VarDef(*VARS.get(words[2] as usize)?, width, words[4], text, index)
        }
        3 if plain && words[2] == 0 => Call::Comment(text),
        _ => return None,
    };
    Some(Row { parent: words[1], call })
}

/// The index of three words, if they are one.
fn index(form: u64, first: u64, second: u64) -> Option<Option<ReferenceIndex>> {
    let number = |word: u64| u32::try_from(word).ok().map(|n| n as i32);
    match (form, first, second) {
        (0, 0, 0) => Some(None),
        (1, n, 0) => Some(Some(ReferenceIndex::BitSelect(number(n)?))),
        (2, m, n) => Some(Some(ReferenceIndex::Range(number(m)?, number(n)?))),
        _ => None,
    }
}

/// The calls that the rows amount to, with the upscopes between them; none where the table is bad.
fn calls(rows: Vec<Option<Row>>) -> Option<Vec<Call>> {
    let mut calls = Vec::new();
    let mut open: Vec<u64> = Vec::new();
    for (n, row) in rows.into_iter().enumerate() {
        let Row { parent, call } = row?;
        let stay = match parent {
            TOP => 0,
            _ => 1 + open.iter().position(|scope| *scope == parent)?,
        };
        calls.extend(open.drain(stay..).map(|_| Call::Upscope));
        if matches!(call, Call::ScopeDef(..)) {
            if open.len() == MOST_SCOPES {
                return None;
            }
            open.push(n as u64);
        }
        calls.push(call);
    }
    calls.extend(open.iter().map(|_| Call::Upscope));
    calls.push(Call::Enddefinitions);
    Some(calls)
}

// page: 25 for any text outside, then 23, and then command by command: those before 22 or 21 stay.
pub fn header(source: &[u8], state: State, table: &Table, room: usize) -> (Option<u8>, Wrote) {
    let mut wrote = Wrote::nothing(state);
    let (kept, rows) = (table.kept(), table.rows());
    let outside = |call: &Call| text_of(call).is_some_and(|t| bytes_at(source, t).is_none());
    if kept.iter().any(outside) || rows.iter().flatten().any(|row| outside(&row.call)) {
        return (Some(25), wrote);
    }
    let Some(calls) = calls(rows).filter(|_| table.head[0] <= MOST_ROWS) else {
        return (Some(23), wrote);
    };
    for call in kept.iter().chain(&calls) {
        match perform(source, wrote.state, call, room - wrote.bytes.len()) {
            Ok(next) => {
                wrote.bytes.extend(next.bytes);
                wrote.state = next.state;
            }
            Err(number) => return (Some(number), wrote),
        }
    }
    (None, wrote)
}
