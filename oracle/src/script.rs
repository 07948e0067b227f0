//! Scripts of writer calls: the form of a write case (docs/ORACLE.md), and its reading.
use crate::table::Table;
use std::str::SplitAsciiWhitespace;
use vcd::{ReferenceIndex, ScopeType, SimulationCommand, TimescaleUnit, Value, VarType};

pub const UNITS: [TimescaleUnit; 6] = {
    use TimescaleUnit::*;
    [S, MS, US, NS, PS, FS]
};
pub const SCOPES: [ScopeType; 5] = {
    use ScopeType::*;
    [Module, Task, Function, Begin, Fork]
};
pub const VARS: [VarType; 18] = {
    use VarType::*;
    [
        Event, Integer, Parameter, Real, Reg, Supply0, Supply1, Time, Tri, TriAnd, TriOr, TriReg, Tri0, Tri1, WAnd,
        Wire, WOr, String,
    ]
};
pub const VALUES: [Value; 4] = [Value::V0, Value::V1, Value::X, Value::Z];
/// The name of call 1 and those after it.
pub const NAMES: [&str; 19] = [
    "comment", "date", "version", "timescale", "scope_def", "add_module", "upscope", "var_def", "add_var", "add_wire",
    "enddefinitions", "timestamp", "change_scalar", "change_vector", "change_real", "change_string", "begin", "end",
    "header",
];

/// A text's place in the source.
#[derive(Clone, Copy)]
pub struct Text {
    pub start: u64,
    pub len: u64,
}

pub enum Call {
    Comment(Text),
    Date(Text),
    Version(Text),
    Timescale(u32, TimescaleUnit),
    ScopeDef(ScopeType, Text),
    AddModule(Text),
    Upscope,
    VarDef(VarType, u32, u64, Text, Option<ReferenceIndex>),
    AddVar(VarType, u32, Text, Option<ReferenceIndex>),
    AddWire(u32, Text),
    Enddefinitions,
    Timestamp(u64),
    ChangeScalar(u64, Value),
    ChangeVector(u64, Text),
    ChangeReal(u64, Text),
    ChangeString(u64, Text),
    Begin(SimulationCommand),
    End(SimulationCommand),
    Header(Table),
}

#[derive(Clone, Copy)]
pub struct State {
    pub depth: u64,
    pub next: u64,
    pub open: Option<SimulationCommand>,
}

pub struct Script<'a> {
    pub state: State,
    pub source: &'a [u8],
    /// The calls, a line each.
    pub calls: &'a str,
}

/// Simulation commands are numbered from 1, and 0 is none.
pub fn simulation(number: usize) -> Option<SimulationCommand> {
    use SimulationCommand::*;
    [None, Some(Dumpall), Some(Dumpoff), Some(Dumpon), Some(Dumpvars)][number]
}

pub fn split(case: &[u8]) -> Script<'_> {
    let end = case.iter().position(|b| *b == b'\n').expect("a script's first line");
    let mut line = Numbers::new(std::str::from_utf8(&case[..end]).expect("numbers"));
    let length = line.next::<usize>();
    let (depth, next, open) = (line.next(), line.next(), simulation(line.next()));
    let (source, calls) = case[end + 1..].split_at(length);
    let calls = std::str::from_utf8(&calls[1..]).expect("numbers");
    Script { state: State { depth, next, open }, source, calls }
}

/// The numbers of a line.
struct Numbers<'a>(SplitAsciiWhitespace<'a>);

impl<'a> Numbers<'a> {
    fn new(line: &'a str) -> Numbers<'a> {
        Numbers(line.split_ascii_whitespace())
    }

    fn next<T: std::str::FromStr>(&mut self) -> T {
        let number = self.0.next().and_then(|s| s.parse().ok());
        number.expect("a number of a script")
    }

    fn of<T: Copy>(&mut self, list: &[T]) -> T {
        list[self.next::<usize>()]
    }

    fn text(&mut self) -> Text {
        Text { start: self.next(), len: self.next() }
    }

    fn index(&mut self) -> Option<ReferenceIndex> {
        match self.next::<u8>() {
            0 => None,
            1 => Some(ReferenceIndex::BitSelect(self.next())),
            _ => Some(ReferenceIndex::Range(self.next(), self.next())),
        }
    }

    fn simulation(&mut self) -> SimulationCommand {
        simulation(self.next()).expect("a simulation command")
    }
}

/// A line's call: its number, and what it asks.
pub fn call(line: &str) -> (usize, Call) {
    let mut n = Numbers::new(line);
    let number = n.next();
    let call = match number {
        1 => Call::Comment(n.text()),
        2 => Call::Date(n.text()),
        3 => Call::Version(n.text()),
        4 => Call::Timescale(n.next(), n.of(&UNITS)),
        5 => Call::ScopeDef(n.of(&SCOPES), n.text()),
        6 => Call::AddModule(n.text()),
        7 => Call::Upscope,
        8 => Call::VarDef(n.of(&VARS), n.next(), n.next(), n.text(), n.index()),
        9 => Call::AddVar(n.of(&VARS), n.next(), n.text(), n.index()),
        10 => Call::AddWire(n.next(), n.text()),
        11 => Call::Enddefinitions,
        12 => Call::Timestamp(n.next()),
        13 => Call::ChangeScalar(n.next(), n.of(&VALUES)),
        14 => Call::ChangeVector(n.next(), n.text()),
        15 => Call::ChangeReal(n.next(), n.text()),
        16 => Call::ChangeString(n.next(), n.text()),
        17 => Call::Begin(n.simulation()),
        18 => Call::End(n.simulation()),
        19 => Call::Header(Table::new(n.0.map(|s| s.parse().expect("a word of a table")).collect())),
        other => panic!("no call {other}"),
    };
    (number, call)
}
