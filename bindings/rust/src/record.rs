//! The library's words (docs/ABI.md) as commands and header trees. Words that the library did not make give none.
use crate::raw::{Head, Record, Row, NONE, ROW};
use crate::{Command, Header, IdCode, ReferenceIndex, Scope, ScopeItem, ScopeType, SimulationCommand};
use crate::{TimescaleUnit, Value, Var, VarType, Vector};

/// The kinds of records, in the order of `Command`.
pub(crate) mod kind {
    pub const COMMENT: u64 = 1;
    pub const DATE: u64 = 2;
    pub const VERSION: u64 = 3;
    pub const TIMESCALE: u64 = 4;
    pub const SCOPE: u64 = 5;
    pub const UPSCOPE: u64 = 6;
    pub const VAR: u64 = 7;
    pub const ENDDEFINITIONS: u64 = 8;
    pub const TIME: u64 = 9;
    pub const SCALAR: u64 = 10;
    pub const VECTOR: u64 = 11;
    pub const REAL: u64 = 12;
    pub const STRING: u64 = 13;
    pub const BEGIN: u64 = 14;
    pub const END: u64 = 15;
}

pub(crate) fn command_of(input: &[u8], record: &[u64]) -> Option<Command> {
    let [kind, kind_type, number, id, start, len, form, first, second] = Record::try_from(record).ok()?;
    let id = IdCode(id);
    Some(match kind {
        kind::COMMENT => Command::Comment(string_at(input, start, len)?),
        kind::DATE => Command::Date(string_at(input, start, len)?),
        kind::VERSION => Command::Version(string_at(input, start, len)?),
        kind::TIMESCALE => Command::Timescale(u32::try_from(number).ok()?, TimescaleUnit::of(kind_type)?),
        kind::SCOPE => Command::ScopeDef(ScopeType::of(kind_type)?, string_at(input, start, len)?),
        kind::UPSCOPE => Command::Upscope,
        kind::VAR => {
            let index = index_of(form, first, second);
            let size = u32::try_from(number).ok()?;
            Command::VarDef(VarType::of(kind_type)?, size, id, string_at(input, start, len)?, index)
        }
        kind::ENDDEFINITIONS => Command::Enddefinitions,
        kind::TIME => Command::Timestamp(number),
        kind::SCALAR => Command::ChangeScalar(id, Value::of(kind_type)?),
        kind::VECTOR => Command::ChangeVector(id, Vector::parse(bytes_at(input, start, len)?).ok()?),
        kind::REAL => Command::ChangeReal(id, str_at(input, start, len)?.parse().ok()?),
        kind::STRING => Command::ChangeString(id, string_at(input, start, len)?),
        kind::BEGIN => Command::Begin(SimulationCommand::of(kind_type)?),
        kind::END => Command::End(SimulationCommand::of(kind_type)?),
        _ => return None,
    })
}

pub(crate) fn bytes_at(input: &[u8], start: u64, len: u64) -> Option<&[u8]> {
    let start = usize::try_from(start).ok()?;
    input.get(start..start.checked_add(usize::try_from(len).ok()?)?)
}

fn str_at(input: &[u8], start: u64, len: u64) -> Option<&str> {
    std::str::from_utf8(bytes_at(input, start, len)?).ok()
}

fn string_at(input: &[u8], start: u64, len: u64) -> Option<String> {
    str_at(input, start, len).map(str::to_string)
}

/// Index numbers are 32 bits of two's complement.
fn index_of(form: u64, first: u64, second: u64) -> Option<ReferenceIndex> {
    match form {
        0 => None,
        1 => Some(ReferenceIndex::BitSelect(first as i32)),
        _ => Some(ReferenceIndex::Range(first as i32, second as i32)),
    }
}

/// The form of an index and its two numbers.
pub(crate) fn index_words(index: Option<ReferenceIndex>) -> [u64; 3] {
    let word = |n: i32| u64::from(n as u32);
    match index {
        None => [0, 0, 0],
        Some(ReferenceIndex::BitSelect(i)) => [1, word(i), 0],
        Some(ReferenceIndex::Range(msb, lsb)) => [2, word(msb), word(lsb)],
    }
}

/// The tree of a header's rows, and what it keeps beside them.
pub(crate) fn header_of(input: &[u8], head: &Head, rows: &[u64]) -> Option<Header> {
    let mut tree = Tree { items: Vec::new(), open: Vec::new() };
    for (i, row) in rows.chunks_exact(ROW).take(usize::try_from(head[0]).ok()?).enumerate() {
        tree.close_up_to(row[1]);
        match item_of(input, row)? {
            ScopeItem::Scope(scope) => tree.open.push((i as u64, scope)),
            item => tree.innermost().push(item),
        }
    }
    tree.close_up_to(NONE);
    Some(Header {
        date: kept_at(input, &head[1..4])?,
        version: kept_at(input, &head[4..7])?,
        timescale: timescale_of(&head[7..10])?,
        items: tree.items,
    })
}

/// What stands at top, and the open scopes with their rows' numbers, outermost first.
struct Tree {
    items: Vec<ScopeItem>,
    open: Vec<(u64, Scope)>,
}

impl Tree {
    fn innermost(&mut self) -> &mut Vec<ScopeItem> {
        match self.open.last_mut() {
            Some((_, scope)) => &mut scope.items,
            None => &mut self.items,
        }
    }

    /// Closes the scopes inside the one of this row.
    fn close_up_to(&mut self, row: u64) {
        while self.open.last().map_or(false, |(open, _)| *open != row) {
            if let Some((_, scope)) = self.open.pop() {
                self.innermost().push(ScopeItem::Scope(scope));
            }
        }
    }
}

fn item_of(input: &[u8], row: &[u64]) -> Option<ScopeItem> {
    let [kind, _, kind_type, width, id, start, len, form, first, second] = Row::try_from(row).ok()?;
    let text = string_at(input, start, len)?;
    Some(match kind {
        1 => ScopeItem::Scope(Scope::new(ScopeType::of(kind_type)?, text)),
        2 => {
            let index = index_of(form, first, second);
            ScopeItem::Var(Var::new(VarType::of(kind_type)?, u32::try_from(width).ok()?, IdCode(id), text, index))
        }
        _ => ScopeItem::Comment(text),
    })
}

fn kept_at(input: &[u8], words: &[u64]) -> Option<Option<String>> {
    match words[0] {
        0 => Some(None),
        _ => string_at(input, words[1], words[2]).map(Some),
    }
}

fn timescale_of(words: &[u64]) -> Option<Option<(u32, TimescaleUnit)>> {
    match words[0] {
        0 => Some(None),
        _ => Some(Some((u32::try_from(words[1]).ok()?, TimescaleUnit::of(words[2])?))),
    }
}
