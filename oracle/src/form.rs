//! The canonical form of texts and commands, the same for reading and for header rows.
use std::fmt::Write;
use vcd::{Command, IdCode, ReferenceIndex, SimulationCommand};

/// Appends a space, `"` and the bytes; all but 33 to 126, and the backslash, as `\xNN`.
pub fn text(out: &mut String, bytes: &[u8]) {
    out.push_str(" \"");
    for &b in bytes {
        if (33..=126).contains(&b) && b != b'\\' {
            out.push(b as char);
        } else {
            let _ = write!(out, "\\x{b:02x}");
        }
    }
}

/// The crate shows a code's number only in its debug form, `IdCode(5)`.
pub fn code(id: IdCode) -> u64 {
    let shown = format!("{id:?}");
    let digits = &shown["IdCode(".len()..shown.len() - 1];
    digits.parse().expect("a code's number")
}

/// The open simulation command's name, or `-`.
pub fn open(out: &mut String, command: Option<SimulationCommand>) {
    match command {
        Some(c) => {
            let _ = write!(out, " {c}");
        }
        None => out.push_str(" -"),
    }
}

fn index(out: &mut String, index: Option<ReferenceIndex>) {
    match index {
        Some(i) => {
            let _ = write!(out, " {i}");
        }
        None => out.push_str(" -"),
    }
}

fn worded(out: &mut String, name: &str, words: &[u8]) {
    out.push_str(name);
    text(out, words);
}

/// Appends a command's name and fields. `real` is the text of a real, which the crate does not keep.
pub fn command(out: &mut String, command: &Command, real: &[u8]) {
    use Command::*;
    match command {
        Comment(s) => worded(out, "comment", s.as_bytes()),
        Date(s) => worded(out, "date", s.as_bytes()),
        Version(s) => worded(out, "version", s.as_bytes()),
        ScopeDef(t, name) => worded(out, &format!("scope {t}"), name.as_bytes()),
        VarDef(t, width, id, name, i) => {
            worded(out, &format!("var {t} {width} {}", code(*id)), name.as_bytes());
            index(out, *i);
        }
        ChangeReal(id, _) => worded(out, &format!("real {}", code(*id)), real),
        ChangeString(id, s) => worded(out, &format!("string {}", code(*id)), s.as_bytes()),
        plain => out.push_str(&without_text(plain)),
    }
}

fn without_text(command: &Command) -> String {
    use Command::*;
    match command {
        Timescale(quantity, unit) => format!("timescale {quantity} {unit}"),
        Upscope => "upscope".to_string(),
        Enddefinitions => "enddefinitions".to_string(),
        Timestamp(time) => format!("time {time}"),
        ChangeScalar(id, value) => format!("scalar {} {value}", code(*id)),
        ChangeVector(id, values) => format!("vector {} {values}", code(*id)),
        Begin(c) => format!("begin {c}"),
        End(c) => format!("end {c}"),
        other => panic!("a command with no form: {other:?}"),
    }
}
