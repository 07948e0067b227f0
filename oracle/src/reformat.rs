//! Answers of the rewriting program: what document 01's writer accepts of a dump, held to the crate's own program.
use crate::form;
use crate::header::Table;
use crate::program::{opened, refused};
use crate::read::real_text;
use crate::reader::Step;
use crate::script::{Call, State, Text};
use crate::stops::caught;
use crate::write::perform;
use vcd::{Command, Parser, Writer};

// page: 65,536 bytes lent a call; the header is one call.
const LENT: usize = 65_536;

/// The bytes of every accepted command, and the writer's state.
struct Anew {
    bytes: Vec<u8>,
    state: State,
}

pub fn answer(out: &mut String, input: &[u8]) {
    let Some((table, mut reader)) = opened(out, input) else {
        return;
    };
    let mut anew = Anew { bytes: Vec::new(), state: State { depth: 0, next: 0, open: None } };
    let mut end = anew.header(&table).err().map(|number| (number, true));
    while end.is_none() {
        let from = reader.place();
        match reader.step() {
            Step::Done => break,
            Step::Refused(number) => end = Some((number, reader.by_page)),
            Step::Command(command) => {
                let done = anew.command(&command, real_text(input, from, &command), LENT);
                end = done.err().map(|number| (number, true));
            }
        }
    }
    agree(input, &anew.bytes, end.is_some_and(|(_, by_page)| by_page));
    out.push_str(std::str::from_utf8(&anew.bytes).expect("texts are UTF-8"));
    if let Some((number, _)) = end {
        refused(out, number, reader.line());
    }
}

impl Anew {
    /// Writes a header: what it keeps, the rows with their upscopes, and its end.
    fn header(&mut self, table: &Table) -> Result<(), u8> {
        let date = table.date.clone().map(Command::Date);
        let version = table.version.clone().map(Command::Version);
        let timescale = table.timescale.map(|(quantity, unit)| Command::Timescale(quantity, unit));
        for command in [date, version, timescale].into_iter().flatten() {
            self.of_header(&command)?;
        }
        let mut open = Vec::new();
        for (n, (parent, command)) in table.rows.iter().enumerate() {
            while open.last() != parent.as_ref() {
                open.pop();
                self.of_header(&Command::Upscope)?;
            }
            self.of_header(command)?;
            if matches!(command, Command::ScopeDef(..)) {
                open.push(n);
            }
        }
        for _ in open {
            self.of_header(&Command::Upscope)?;
        }
        self.of_header(&Command::Enddefinitions)
    }

    /// A command of the header, for which the rest of the call's bytes is left.
    fn of_header(&mut self, command: &Command) -> Result<(), u8> {
        self.command(command, b"", LENT - self.bytes.len())
    }

    fn command(&mut self, command: &Command, real: &[u8], room: usize) -> Result<(), u8> {
        let text = text(command, real);
        let wrote = perform(&text, self.state, &call(command, text.len()), room)?;
        self.bytes.extend(wrote.bytes);
        self.state = wrote.state;
        Ok(())
    }
}

/// The text that a command writes.
fn text(command: &Command, real: &[u8]) -> Vec<u8> {
    use Command::*;
    match command {
        Comment(s) | Date(s) | Version(s) | ScopeDef(_, s) | VarDef(_, _, _, s, _) | ChangeString(_, s) => {
            s.as_bytes().to_vec()
        }
        ChangeVector(_, values) => values.to_string().into_bytes(),
        ChangeReal(..) => real.to_vec(),
        _ => Vec::new(),
    }
}

/// The writer's call for a command, its text being the whole source.
fn call(command: &Command, length: usize) -> Call {
    use Command::*;
    let text = Text { start: 0, len: length as u64 };
    match *command {
        Comment(_) => Call::Comment(text),
        Date(_) => Call::Date(text),
        Version(_) => Call::Version(text),
        Timescale(quantity, unit) => Call::Timescale(quantity, unit),
        ScopeDef(t, _) => Call::ScopeDef(t, text),
        Upscope => Call::Upscope,
        VarDef(t, width, id, _, index) => Call::VarDef(t, width, form::code(id), text, index),
        Enddefinitions => Call::Enddefinitions,
        Timestamp(time) => Call::Timestamp(time),
        ChangeScalar(id, value) => Call::ChangeScalar(form::code(id), value),
        ChangeVector(id, _) => Call::ChangeVector(form::code(id), text),
        ChangeReal(id, _) => Call::ChangeReal(form::code(id), text),
        ChangeString(id, _) => Call::ChangeString(form::code(id), text),
        Begin(c) => Call::Begin(c),
        End(c) => Call::End(c),
        ref other => panic!("a command with no call: {other:?}"),
    }
}

/// Holds the bytes to those of the crate's own program, but for dumps with reals, whose text it does not keep. Where
/// document 01 refuses, the crate may write more.
fn agree(input: &[u8], bytes: &[u8], by_page: bool) {
    let mut theirs = Vec::new();
    let mut reals = false;
    caught(|| {
        let mut parser = Parser::new(input);
        let mut writer = Writer::new(&mut theirs);
        let header = parser.parse_header().expect("a whole header");
        writer.header(&header).expect("a vector takes all");
        for command in parser {
            let Ok(command) = command else {
                return;
            };
            reals |= matches!(command, Command::ChangeReal(..));
            writer.command(&command).expect("a vector takes all");
        }
    });
    assert!(reals || theirs.starts_with(bytes));
    assert!(reals || by_page || theirs.len() == bytes.len());
}
