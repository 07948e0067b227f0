//! What the tests share: the recorded cases (docs/ORACLE.md), the simulators' dumps, and the crate's errors as numbers.
#![allow(dead_code)]
use std::fs;
use std::io;
use std::path::{Path, PathBuf};

fn root() -> PathBuf {
    Path::new(env!("CARGO_MANIFEST_DIR")).join("../..")
}

pub fn file(path: &str) -> Vec<u8> {
    fs::read(root().join(path)).unwrap_or_else(|e| panic!("{path}: {e}"))
}

/// The program that a kind's cases are recorded for: both jobs have one.
fn program(kind: &str) -> &str {
    if matches!(kind, "list" | "reformat") { "job" } else { kind }
}

/// The recorded cases of a kind. Where a program has several kinds, each stream of cases stands after a line with its name.
pub fn cases(kind: &str) -> Vec<Vec<u8>> {
    let all = file(&format!("crates/replay_{}/stdin", program(kind)));
    let (mut rest, mut named, mut cases) = (&all[..], kind.to_string(), Vec::new());
    while !rest.is_empty() {
        let line = take_line(&mut rest);
        match line.parse::<usize>() {
            Ok(len) => {
                if named == kind {
                    cases.push(rest[..len].to_vec());
                }
                rest = &rest[len + 1..];
            }
            Err(_) => named = line,
        }
    }
    assert!(cases.len() > 100, "too few {kind} cases");
    cases
}

/// The recorded answers to them: those of the second kind begin at the second case 0.
pub fn answers(kind: &str) -> Vec<u8> {
    let all = file(&format!("crates/replay_{}/stdout", program(kind)));
    let mark = b"\ncase 0\n";
    let second = all.windows(mark.len()).position(|w| w == mark);
    match (kind, second) {
        ("list", Some(at)) => all[..=at].to_vec(),
        ("reformat", Some(at)) => all[at + 1..].to_vec(),
        _ => all,
    }
}

/// Takes a line of ASCII off the front.
pub fn take_line(rest: &mut &[u8]) -> String {
    let end = rest.iter().position(|b| *b == b'\n').expect("a line");
    let line = String::from_utf8(rest[..end].to_vec()).expect("ASCII");
    *rest = &rest[end + 1..];
    line
}

/// The dumps of all recorded cases that have one, and those that simulators wrote.
pub fn dumps() -> Vec<Vec<u8>> {
    let mut dumps: Vec<Vec<u8>> = ["read", "list", "reformat"].into_iter().flat_map(cases).collect();
    for case in cases("header") {
        let mut rest = &case[..];
        take_line(&mut rest);
        dumps.push(rest.to_vec());
    }
    let folder = root().join("oracle/dumps");
    let mut paths: Vec<PathBuf> =
        fs::read_dir(folder).expect("oracle/dumps").map(|e| e.expect("an entry").path()).collect();
    paths.sort();
    let simulated: Vec<Vec<u8>> =
        paths.iter().filter(|p| p.extension() == Some("vcd".as_ref())).map(|p| fs::read(p).expect("a dump")).collect();
    assert!(simulated.len() > 5, "too few dumps");
    dumps.extend(simulated);
    dumps
}

/// An error as both crates can tell it: std's kind, and line and kind of a ParseError.
pub fn crate_error(e: &io::Error) -> String {
    let inner = e.get_ref().and_then(|e| e.downcast_ref::<vcd::ParseError>());
    match inner {
        Some(p) => format!("{:?} {:?} at {}: {p}", e.kind(), p.kind(), p.line()),
        None => format!("{:?}", e.kind()),
    }
}

pub fn our_error(e: &io::Error) -> String {
    let p = parse_error(e);
    match p.kind() {
        vcd_proved::ParseErrorKind::UnexpectedEof => format!("{:?}", e.kind()),
        kind => format!("{:?} {kind:?} at {}: {p}", e.kind(), p.line()),
    }
}

pub fn parse_error(e: &io::Error) -> &vcd_proved::ParseError {
    e.get_ref().and_then(|e| e.downcast_ref()).expect("a ParseError")
}

/// docs/DIFFERENCES.md: a timescale's first token that is not ASCII is 11 here; the crate reads on, or finds no number.
pub fn foreign_timescale(dump: &[u8], ours: &str, theirs: &str) -> bool {
    let has = String::from_utf8_lossy(dump).split_ascii_whitespace().any(|word| !word.is_ascii());
    has && ours.contains("InvalidTimescaleUnit") && (theirs.contains("ParseIntError") || theirs == "UnexpectedEof")
}
