//! What the listing program and the rewriting program share: the longest dump, the header's rows, the last lines.
use crate::header::{self, Table};
use crate::reader::Reader;
use std::fmt::Write;

// page: standard input of up to 65,536 bytes, 256 header rows.
const LONGEST: usize = 65_536;
const ROWS: usize = 256;

/// A dump whose header is whole: its rows, and the reader behind them. For others the program's one line is printed.
pub fn opened(out: &mut String, input: &[u8]) -> Option<(Table, Reader)> {
    if input.len() > LONGEST {
        out.push_str("input too long\n");
        return None;
    }
    let mut reader = Reader::new(input);
    let (table, number) = header::read(&mut reader, ROWS);
    match number {
        Some(number) => {
            refused(out, number, reader.line());
            None
        }
        None => Some((table, reader)),
    }
}

pub fn refused(out: &mut String, number: u8, line: u64) {
    let _ = writeln!(out, "refused {number} at {line}");
}
