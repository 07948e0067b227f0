//! Answers to headers: rows in file order by the page's rules, held to the crate's `parse_header`.
use crate::form;
use crate::reader::{number, Reader, Step, MASKED};
use std::fmt::Write;
use std::io::Cursor;
use vcd::{Command, Header, Parser, ScopeItem, TimescaleUnit};

/// A row: its parent's number, and the command that made it.
type Row = (Option<usize>, Command);

#[derive(Debug, Default, PartialEq)]
pub struct Table {
    pub date: Option<String>,
    pub version: Option<String>,
    pub timescale: Option<(u32, TimescaleUnit)>,
    pub rows: Vec<Row>,
}

/// A table being filled, the rows of its open scopes, and how many rows it may have.
struct Filling {
    table: Table,
    open: Vec<usize>,
    lent: usize,
}

impl Filling {
    /// Takes a header's commands. Answers the refusal's number, or none for a whole header.
    fn fill(&mut self, reader: &mut Reader) -> Option<u8> {
        loop {
            match reader.step() {
                Step::Refused(number) => return Some(number),
                Step::Done => return Some(1),
                Step::Command(Command::Enddefinitions) if self.open.is_empty() => return None,
                Step::Command(command) => {
                    if let Err(number) = self.take(command) {
                        return Some(number);
                    }
                }
            }
        }
    }

    fn take(&mut self, command: Command) -> Result<(), u8> {
        use Command::*;
        let top = self.open.is_empty();
        match command {
            Date(s) if top => self.table.date = Some(s),
            Version(s) if top => self.table.version = Some(s),
            Timescale(quantity, unit) if top => self.table.timescale = Some((quantity, unit)),
            Upscope if !top => drop(self.open.pop()),
            Comment(_) | VarDef(..) => drop(self.add(command)?),
            // page: the 65th open scope is 19, before 20.
            ScopeDef(..) if self.open.len() == 64 => return Err(19),
            ScopeDef(..) => {
                let row = self.add(command)?;
                self.open.push(row);
            }
            _ => return Err(8),
        }
        Ok(())
    }

    fn add(&mut self, command: Command) -> Result<usize, u8> {
        let row = self.table.rows.len();
        // page: a row is needed and none is free.
        if row == self.lent {
            return Err(20);
        }
        self.table.rows.push((self.open.last().copied(), command));
        Ok(row)
    }
}

/// The rows lent (a header case's first line) and the dump after it.
pub fn split(case: &[u8]) -> (usize, &[u8]) {
    let end = case.iter().position(|b| *b == b'\n').expect("a header case's first line");
    let rows = std::str::from_utf8(&case[..end]).ok().and_then(|s| s.parse().ok());
    (rows.expect("the number of rows lent"), &case[end + 1..])
}

/// Reads a header into so many rows: the table, and the refusal's number, or none for a whole header.
pub fn read(reader: &mut Reader, lent: usize) -> (Table, Option<u8>) {
    // page: at most 4,096 rows, or fewer as lent.
    let mut filling = Filling { table: Table::default(), open: Vec::new(), lent: lent.min(4096) };
    let refused = filling.fill(reader);
    agree(reader, &filling.table, refused);
    (filling.table, refused)
}

pub fn answer(out: &mut String, case: &[u8]) {
    let (lent, input) = split(case);
    let mut reader = Reader::new(input);
    let (table, refused) = read(&mut reader, lent);
    print(out, &table);
    match refused {
        Some(number) => {
            let _ = write!(out, "refused {number}");
        }
        None => out.push_str("header"),
    }
    let _ = write!(out, " {} {}", reader.line(), reader.place());
    let (pending, open) = reader.left_over();
    let _ = write!(out, " {}", pending as u8);
    form::open(out, open);
    out.push('\n');
}

fn print(out: &mut String, table: &Table) {
    for (parent, command) in &table.rows {
        form::command(out, command, b"");
        match parent {
            Some(row) => {
                let _ = writeln!(out, " {row}");
            }
            None => out.push_str(" top\n"),
        }
    }
    print_text(out, "date", &table.date);
    print_text(out, "version", &table.version);
    match table.timescale {
        Some((quantity, unit)) => {
            let _ = writeln!(out, "timescale {quantity} {unit}");
        }
        None => out.push_str("timescale -\n"),
    }
}

fn print_text(out: &mut String, name: &str, text: &Option<String>) {
    out.push_str(name);
    match text {
        Some(s) => form::text(out, s.as_bytes()),
        None => out.push_str(" -"),
    }
    out.push('\n');
}

/// Holds the answer to the crate's own header, which knows no 19 and no 20.
fn agree(reader: &mut Reader, table: &Table, refused: Option<u8>) {
    if matches!(refused, Some(19 | 20)) {
        return;
    }
    let mut parser = Parser::new(Cursor::new(reader.given()));
    let header = parser.parse_header();
    let (line, place) = (parser.line(), parser.reader().position());
    assert_eq!((line, place as usize), (reader.line(), reader.place()));
    match header {
        Ok(header) => assert_eq!((&flat(header), None), (table, refused)),
        Err(e) if reader.by_page => assert_eq!((number(&e, line), refused), (MASKED, Some(11))),
        Err(e) => assert_eq!(Some(number(&e, line)), refused),
    }
}

fn flat(header: Header) -> Table {
    let mut table = Table { date: header.date, version: header.version, timescale: header.timescale, rows: Vec::new() };
    add_items(&mut table.rows, None, header.items);
    table
}

fn add_items(rows: &mut Vec<Row>, parent: Option<usize>, items: Vec<ScopeItem>) {
    for item in items {
        match item {
            ScopeItem::Comment(s) => rows.push((parent, Command::Comment(s))),
            ScopeItem::Var(v) => {
                let var = Command::VarDef(v.var_type, v.size, v.code, v.reference, v.index);
                rows.push((parent, var));
            }
            ScopeItem::Scope(s) => {
                let row = rows.len();
                rows.push((parent, Command::ScopeDef(s.scope_type, s.identifier)));
                add_items(rows, Some(row), s.items);
            }
            other => panic!("an item with no row: {other:?}"),
        }
    }
}
