//! Answers to reading: each command with the line and place after it, until done.
use crate::form;
use crate::reader::{skip_blanks, token, Reader, Step};
use std::fmt::Write;
use vcd::Command;

/// Reading goes on after a refusal; this many end the case.
const REFUSALS: usize = 4;

pub fn answer(out: &mut String, input: &[u8]) {
    let mut reader = Reader::new(input);
    let mut refusals = 0;
    while refusals < REFUSALS {
        let from = reader.place();
        let step = reader.step();
        match &step {
            Step::Command(c) => form::command(out, c, real_text(input, from, c)),
            Step::Done => out.push_str("done"),
            Step::Refused(number) => {
                refusals += 1;
                let _ = write!(out, "refused {number}");
            }
        }
        let _ = writeln!(out, " {} {}", reader.line(), reader.place());
        if matches!(step, Step::Done) {
            return;
        }
    }
}

/// A real's text, found again in the bytes of its command.
pub fn real_text<'a>(input: &'a [u8], from: usize, command: &Command) -> &'a [u8] {
    let Command::ChangeReal(_, value) = command else {
        return b"";
    };
    let letter = skip_blanks(input, from);
    let text = &input[token(input, letter + 1).expect("a real's token")];
    let read: f64 = std::str::from_utf8(text).unwrap().parse().unwrap();
    assert_eq!(read.to_bits(), value.to_bits());
    text
}
