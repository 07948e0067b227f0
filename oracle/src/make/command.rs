//! Commands as rows of places, filled with good tokens or with an odd one at a chosen place.
use crate::rng::Rng;
use crate::script::{SCOPES, UNITS, VARS};
use vcd::IdCode;

/// A place of a command. A blank follows each but `Lead`, `First` and `Remark`.
#[derive(Clone, Copy)]
pub enum Slot {
    Lead(&'static str),
    First,
    Word(&'static str),
    Remark,
    Scale,
    Unit,
    Close,
    VarClose,
    ScopeType,
    VarType,
    Name,
    Width,
    Id,
    Index,
    Time,
    Values,
    Real,
}

use Slot::*;

pub const COMMENT: &[Slot] = &[Lead("$"), Word("comment"), Remark, Lead("$end\n")];
pub const DATE: &[Slot] = &[Lead("$"), Word("date"), Remark, Lead("$end\n")];
pub const VERSION: &[Slot] = &[Lead("$"), Word("version"), Remark, Lead("$end\n")];
pub const TIMESCALE: &[Slot] = &[Lead("$"), Word("timescale"), Scale, Close];
pub const SCOPE: &[Slot] = &[Lead("$"), Word("scope"), ScopeType, Name, Close];
pub const UPSCOPE: &[Slot] = &[Lead("$"), Word("upscope"), Close];
pub const VAR: &[Slot] = &[Lead("$"), Word("var"), VarType, Width, Id, Name, VarClose];
pub const INDEXED: &[Slot] = &[Lead("$"), Word("var"), VarType, Width, Id, Name, Index, VarClose];
pub const ENDDEFINITIONS: &[Slot] = &[Lead("$"), Word("enddefinitions"), Close];

pub const COMMANDS: &[&[Slot]] = &[
    COMMENT,
    DATE,
    VERSION,
    TIMESCALE,
    &[Lead("$"), Word("timescale"), Lead("10 "), Unit, Close],
    SCOPE,
    UPSCOPE,
    VAR,
    INDEXED,
    ENDDEFINITIONS,
    &[Lead("$"), Word("dumpall")],
    &[Lead("$"), Word("dumpoff")],
    &[Lead("$"), Word("dumpon")],
    &[Lead("$"), Word("dumpvars")],
    &[Lead("$"), Word("end")],
    &[Lead("#"), Time],
    &[First, Id],
    &[Lead("b"), Values, Id],
    &[Lead("B"), Values, Id],
    &[Lead("r"), Real, Id],
    &[Lead("R"), Real, Id],
    &[Lead("s"), Name, Id],
    &[Lead("S"), Name, Id],
];

pub fn scope_types() -> Vec<String> {
    SCOPES.iter().map(|t| t.to_string()).collect()
}

pub fn var_types() -> Vec<String> {
    VARS.iter().map(|t| t.to_string()).collect()
}

/// Mostly one space, so that the odd place is what the case is about.
pub fn blank(rng: &mut Rng) -> &'static str {
    if rng.one_in(3) {
        rng.pick(&["\n", "\t", "\r\n", "  ", " \n ", "\r", "\n\n"])
    } else {
        " "
    }
}

/// A number of any size.
pub fn size(rng: &mut Rng) -> u64 {
    let bits = rng.below(64);
    rng.draw() >> bits
}

fn good(slot: Slot, rng: &mut Rng) -> String {
    match slot {
        Lead(s) | Word(s) => s.to_string(),
        First => rng.pick(&["0", "1", "x", "X", "z", "Z"]).to_string(),
        Remark => rng.pick(&["a", " a b ", "\n\tdate é\n", "", " ", "v1.0 $ x"]).to_string(),
        Scale => format!("{}{}{}", rng.pick(&[1, 10, 100]), rng.pick(&["", " ", "\n"]), rng.pick(&UNITS)),
        Unit => rng.pick(&UNITS).to_string(),
        Close | VarClose => "$end".to_string(),
        ScopeType => rng.pick(&SCOPES).to_string(),
        VarType => rng.pick(&VARS).to_string(),
        Name => rng.pick(&["a", "clk", "u_core", "data[3]", "é", "q$"]).to_string(),
        Width => (size(rng) as u32).to_string(),
        Id => IdCode::from(size(rng).min(u64::MAX - 1)).to_string(),
        Index => match rng.below(2) {
            0 => format!("[{}]", size(rng) as i32),
            _ => format!("[{}:{}]", size(rng) as i32, rng.below(9)),
        },
        Time => size(rng).to_string(),
        Values => (0..1 + rng.below(9)).map(|_| rng.pick(&['0', '1', 'x', 'X', 'z', 'Z'])).collect(),
        Real => rng.pick(&["1.5", "-2e-3", "inf", "NaN", "0", ".25", "7.", "+1E9"]).to_string(),
    }
}

/// Writes a command, with `odd` in the place that it names.
pub fn put(out: &mut Vec<u8>, command: &[Slot], odd: Option<(usize, &[u8])>, rng: &mut Rng) {
    for (at, slot) in command.iter().enumerate() {
        match odd {
            Some((place, token)) if place == at => out.extend_from_slice(token),
            _ => out.extend_from_slice(good(*slot, rng).as_bytes()),
        }
        if !matches!(slot, Lead(_) | First | Remark) {
            out.extend_from_slice(blank(rng).as_bytes());
        }
    }
}

/// Writes up to `most` good commands.
pub fn put_some(out: &mut Vec<u8>, most: usize, rng: &mut Rng) {
    for _ in 0..rng.below(most + 1) {
        put(out, rng.pick(COMMANDS), None, rng);
    }
}
