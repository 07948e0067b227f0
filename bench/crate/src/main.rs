//! `crate_bench MODE FILE TURNS [ID]`: crate vcd 0.7.0 over a file that is in memory, TURNS times. Prints how much was found, a sum over
//! it that bench/ours.c forms too, and the processor's nanoseconds in the best turn. MODE is `load` (nothing, for what loading costs),
//! `read`, `list`, `commands` or `rewrite`; `command-bytes` and `bytes` write out what the last two make.
mod clock;

use std::hint::black_box;
use std::io::Write;
use vcd::{Command, IdCode, Parser, Writer};

/// What was found: how much, and a sum over it.
type Found = (usize, u64);

fn main() {
    let args: Vec<String> = std::env::args().collect();
    let input = std::fs::read(&args[2]).expect("the file");
    let turns: u32 = args[3].parse().expect("how many turns");
    let id = args.get(4).map(|text| text.parse().expect("an id"));
    // Kept from turn to turn, so that the best turn asks for no memory: ours writes into lent memory.
    let (mut changes, mut out) = (Vec::new(), Vec::with_capacity(2 * input.len()));
    let mut best = u64::MAX;
    let mut found = (0, 0);
    for _ in 0..turns {
        let start = clock::nanoseconds();
        found = match args[1].as_str() {
            "load" => (input.len(), 0),
            "read" => read(&input),
            "list" => list(&input, id.expect("an id"), &mut changes),
            "commands" | "command-bytes" => commands(&input, &mut out),
            "rewrite" | "bytes" => rewrite(&input, &mut out),
            mode => panic!("no such mode: {mode}"),
        };
        best = best.min(clock::nanoseconds() - start);
    }
    if args[1].ends_with("bytes") {
        std::io::stdout().write_all(&out).expect("written");
    } else {
        println!("{} {} {best}", found.0, found.1);
    }
}

/// Every command; the sum is of kinds.
fn read(input: &[u8]) -> Found {
    let (mut count, mut sum) = (0, 0);
    for command in Parser::new(input) {
        let command = command.expect("a command");
        sum += kind(black_box(&command));
        count += 1;
    }
    (count, sum)
}

/// As the records of the library number it.
fn kind(command: &Command) -> u64 {
    match command {
        Command::Comment(_) => 1,
        Command::Date(_) => 2,
        Command::Version(_) => 3,
        Command::Timescale(..) => 4,
        Command::ScopeDef(..) => 5,
        Command::Upscope => 6,
        Command::VarDef(..) => 7,
        Command::Enddefinitions => 8,
        Command::Timestamp(_) => 9,
        Command::ChangeScalar(..) => 10,
        Command::ChangeVector(..) => 11,
        Command::ChangeReal(..) => 12,
        Command::ChangeString(..) => 13,
        Command::Begin(_) => 14,
        Command::End(_) => 15,
        _ => 0,
    }
}

/// A change: the last time before it, its line, its value.
struct Change {
    time: Option<u64>,
    line: u64,
    command: Command,
}

/// The header, then every change of one id; the sum is of times, lines and lengths of values.
fn list(input: &[u8], id: IdCode, changes: &mut Vec<Change>) -> Found {
    changes.clear();
    let mut parser = Parser::new(input);
    black_box(parser.parse_header().expect("a header"));
    let mut time = None;
    while let Some(command) = parser.next() {
        let command = command.expect("a command");
        match command {
            Command::Timestamp(t) => time = Some(t),
            Command::ChangeScalar(i, _)
            | Command::ChangeVector(i, _)
            | Command::ChangeReal(i, _)
            | Command::ChangeString(i, _)
                if i == id =>
            {
                changes.push(Change { time, line: parser.line(), command })
            }
            _ => {}
        }
    }
    let sum = changes.iter().map(|c| c.time.unwrap_or(0) + c.line + length(&c.command)).fold(0, u64::wrapping_add);
    (changes.len(), sum)
}

/// Of a change's value. The crate does not keep a real's text: the dumps have no reals.
fn length(change: &Command) -> u64 {
    match change {
        Command::ChangeScalar(..) => 1,
        Command::ChangeVector(_, v) => v.len() as u64,
        Command::ChangeString(_, s) => s.len() as u64,
        _ => 0,
    }
}

/// Every command written anew into memory, those of the header too.
fn commands(input: &[u8], out: &mut Vec<u8>) -> Found {
    out.clear();
    let mut writer = Writer::new(&mut *out);
    for command in Parser::new(input) {
        writer.command(&command.expect("a command")).expect("written");
    }
    (black_box(out).len(), 0)
}

/// The header through its table, then every command, written anew into memory.
fn rewrite(input: &[u8], out: &mut Vec<u8>) -> Found {
    out.clear();
    let mut parser = Parser::new(input);
    let header = parser.parse_header().expect("a header");
    let mut writer = Writer::new(&mut *out);
    writer.header(&header).expect("written");
    for command in parser {
        writer.command(&command.expect("a command")).expect("written");
    }
    (black_box(out).len(), 0)
}
