//! Answers of the listing program: the changes that the crate reads, printed by document 01's rules.
use crate::program::{opened, refused};
use crate::read::real_text;
use crate::reader::{Reader, Step};
use std::fmt::Write;
use vcd::{Command, IdCode, Value, Vector};

// page: 1,024 listing rows for a variable, and no fill for a width above 1,024.
const ROWS: usize = 1_024;
const WIDEST: usize = 1_024;

enum Changed {
    Scalar(Value),
    Vector(Vector),
    Text(String),
}

struct Change {
    id: IdCode,
    time: Option<u64>,
    line: u64,
    value: Changed,
}

/// All changes behind a header, and how their reading was refused: number and line.
struct Data {
    changes: Vec<Change>,
    refused: Option<(u8, u64)>,
}

pub fn answer(out: &mut String, input: &[u8]) {
    let Some((table, reader)) = opened(out, input) else {
        return;
    };
    let data = read(input, reader);
    let mut met = false;
    for (_, row) in &table.rows {
        if let Command::VarDef(_, width, id, reference, _) = row {
            met |= !print(out, &data.changes, *id, reference, *width as usize);
        }
    }
    // page: a refusal is told where a listing met it; a full listing ended before.
    if let (true, Some((number, line))) = (met, data.refused) {
        refused(out, number, line);
    }
}

fn read(input: &[u8], mut reader: Reader) -> Data {
    let mut data = Data { changes: Vec::new(), refused: None };
    let mut time = None;
    loop {
        let from = reader.place();
        let command = match reader.step() {
            Step::Done => return data,
            Step::Refused(number) => {
                data.refused = Some((number, reader.line()));
                return data;
            }
            Step::Command(command) => command,
        };
        let real = String::from_utf8_lossy(real_text(input, from, &command)).into_owned();
        let (id, value) = match command {
            Command::Timestamp(t) => {
                time = Some(t);
                continue;
            }
            Command::ChangeScalar(id, value) => (id, Changed::Scalar(value)),
            Command::ChangeVector(id, values) => (id, Changed::Vector(values)),
            Command::ChangeReal(id, _) => (id, Changed::Text(real)),
            Command::ChangeString(id, text) => (id, Changed::Text(text)),
            _ => continue,
        };
        data.changes.push(Change { id, time, line: reader.line(), value });
    }
}

/// Prints a variable's changes; true where there are more than the rows.
fn print(out: &mut String, changes: &[Change], id: IdCode, reference: &str, width: usize) -> bool {
    let mut own = changes.iter().filter(|change| change.id == id);
    for change in own.by_ref().take(ROWS) {
        let time = change.time.map_or("-".to_string(), |t| t.to_string());
        let _ = writeln!(out, "{reference} {time} {} {}", change.line, shown(&change.value, width));
    }
    let full = own.next().is_some();
    if full {
        let _ = writeln!(out, "{reference} full");
    }
    full
}

fn shown(value: &Changed, width: usize) -> String {
    match value {
        Changed::Scalar(value) => value.to_string(),
        Changed::Vector(values) if width <= WIDEST => {
            let fill = Vector::zeros(width.saturating_sub(values.len()));
            format!("{fill}{values}")
        }
        Changed::Vector(values) => values.to_string(),
        Changed::Text(text) => text.clone(),
    }
}
