//! The exported functions, each behind a safe wrapper of the same name and order of arguments. What they answer and leave behind is
//! said in include/vcd.h, the arrays' layouts in docs/ABI.md.
//!
//! The only unsafe code of this package. Each call hands over slices as pointer and length; what is written is borrowed mutably, so
//! that it overlaps nothing, and the functions touch nothing else and keep nothing.
#![allow(unsafe_code)]

/// Words of a cursor, a writer, a time, a head, a record, a header's row and a change.
pub const CURSOR: usize = 4;
pub const WRITER: usize = 3;
pub const SINCE: usize = 2;
pub const HEAD: usize = 10;
pub const RECORD: usize = 9;
pub const ROW: usize = 10;
pub const CHANGE: usize = 6;

pub type Cursor = [u64; CURSOR];
pub type Writer = [u64; WRITER];
pub type Since = [u64; SINCE];
pub type Head = [u64; HEAD];
pub type Record = [u64; RECORD];
pub type Row = [u64; ROW];
pub type Change = [u64; CHANGE];

/// A cursor at the start of an input, a fresh writer, and no time.
pub const CURSOR_START: Cursor = [0, 1, 0, 0];
pub const WRITER_START: Writer = [0, 0, 0];
pub const SINCE_START: Since = [0, 0];

/// The most rows that a header has.
pub const MOST_ROWS: usize = 4096;

/// The longest text of an id.
pub const ID_TEXT: usize = 10;

/// No row, no parent, no id.
pub const NONE: u64 = u64::MAX;

/// Answers that this package tells apart; the others are refusals' numbers.
pub const OK: u64 = 0;
pub const NO_ROOM: u64 = 21;
pub const LIST_FULL: u64 = 24;
pub const BAD_PLACE: u64 = 25;
pub const DONE: u64 = 255;

#[rustfmt::skip]
extern "C" {
    fn vcd_next(input: *const u8, input_len: usize, cursor: *mut u64, cursor_len: usize, record: *mut u64, record_len: usize) -> u64;
    fn vcd_read(input: *const u8, input_len: usize, cursor: *mut u64, cursor_len: usize, records: *mut u64, records_len: usize,
                count: *mut u64) -> u64;
    fn vcd_header(input: *const u8, input_len: usize, cursor: *mut u64, cursor_len: usize, rows: *mut u64, rows_len: usize,
                  head: *mut u64, head_len: usize) -> u64;
    fn vcd_row(rows: *const u64, rows_len: usize, i: usize, row: *mut u64, row_len: usize) -> u64;
    fn vcd_find_scope(input: *const u8, input_len: usize, rows: *const u64, rows_len: usize, count: usize, path: *const u8,
                      path_len: usize, row: *mut u64) -> u64;
    fn vcd_find_var(input: *const u8, input_len: usize, rows: *const u64, rows_len: usize, count: usize, path: *const u8,
                    path_len: usize, row: *mut u64) -> u64;
    fn vcd_command(writer: *mut u64, writer_len: usize, src: *const u8, src_len: usize, record: *const u64, record_len: usize,
                   out: *mut u8, out_len: usize, count: *mut u64) -> u64;
    fn vcd_write_header(writer: *mut u64, writer_len: usize, src: *const u8, src_len: usize, head: *const u64, head_len: usize,
                        rows: *const u64, rows_len: usize, out: *mut u8, out_len: usize, count: *mut u64) -> u64;
    fn vcd_rewrite(input: *const u8, input_len: usize, cursor: *mut u64, cursor_len: usize, writer: *mut u64, writer_len: usize,
                   out: *mut u8, out_len: usize, count: *mut u64, line: *mut u64) -> u64;
    fn vcd_list(input: *const u8, input_len: usize, cursor: *mut u64, cursor_len: usize, code: u64, rows: *mut u64, rows_len: usize,
                count: *mut u64) -> u64;
    fn vcd_list_on(input: *const u8, input_len: usize, cursor: *mut u64, cursor_len: usize, since: *mut u64, since_len: usize,
                   code: u64, rows: *mut u64, rows_len: usize, count: *mut u64) -> u64;
    fn vcd_change(rows: *const u64, rows_len: usize, i: usize, change: *mut u64, change_len: usize) -> u64;
    fn vcd_widen(input: *const u8, input_len: usize, start: usize, len: usize, width: u32, out: *mut u8, out_len: usize,
                 count: *mut u64) -> u64;
    fn vcd_id_text(code: u64, out: *mut u8, out_len: usize, count: *mut u64) -> u64;
    fn vcd_id_code(text: *const u8, text_len: usize, code: *mut u64) -> u64;
}

pub fn next(input: &[u8], cursor: &mut Cursor, record: &mut Record) -> u64 {
    unsafe { vcd_next(input.as_ptr(), input.len(), cursor.as_mut_ptr(), CURSOR, record.as_mut_ptr(), RECORD) }
}

pub fn read(input: &[u8], cursor: &mut Cursor, records: &mut [u64], count: &mut u64) -> u64 {
    let (records, records_len) = (records.as_mut_ptr(), records.len());
    unsafe { vcd_read(input.as_ptr(), input.len(), cursor.as_mut_ptr(), CURSOR, records, records_len, count) }
}

pub fn header(input: &[u8], cursor: &mut Cursor, rows: &mut [u64], head: &mut Head) -> u64 {
    let (rows, rows_len) = (rows.as_mut_ptr(), rows.len());
    let (cursor, head) = (cursor.as_mut_ptr(), head.as_mut_ptr());
    unsafe { vcd_header(input.as_ptr(), input.len(), cursor, CURSOR, rows, rows_len, head, HEAD) }
}

pub fn row(rows: &[u64], i: usize, row: &mut Row) -> u64 {
    unsafe { vcd_row(rows.as_ptr(), rows.len(), i, row.as_mut_ptr(), ROW) }
}

pub fn find_scope(input: &[u8], rows: &[u64], count: usize, path: &[u8], row: &mut u64) -> u64 {
    let (rows, rows_len) = (rows.as_ptr(), rows.len());
    unsafe { vcd_find_scope(input.as_ptr(), input.len(), rows, rows_len, count, path.as_ptr(), path.len(), row) }
}

pub fn find_var(input: &[u8], rows: &[u64], count: usize, path: &[u8], row: &mut u64) -> u64 {
    let (rows, rows_len) = (rows.as_ptr(), rows.len());
    unsafe { vcd_find_var(input.as_ptr(), input.len(), rows, rows_len, count, path.as_ptr(), path.len(), row) }
}

pub fn command(writer: &mut Writer, src: &[u8], record: &Record, out: &mut [u8], count: &mut u64) -> u64 {
    let (out, out_len) = (out.as_mut_ptr(), out.len());
    let (writer, record) = (writer.as_mut_ptr(), record.as_ptr());
    unsafe { vcd_command(writer, WRITER, src.as_ptr(), src.len(), record, RECORD, out, out_len, count) }
}

pub fn write_header(
    writer: &mut Writer,
    src: &[u8],
    head: &Head,
    rows: &[u64],
    out: &mut [u8],
    count: &mut u64,
) -> u64 {
    let (out, out_len) = (out.as_mut_ptr(), out.len());
    let (rows, rows_len) = (rows.as_ptr(), rows.len());
    let (writer, head) = (writer.as_mut_ptr(), head.as_ptr());
    unsafe {
        vcd_write_header(writer, WRITER, src.as_ptr(), src.len(), head, HEAD, rows, rows_len, out, out_len, count)
    }
}

pub fn rewrite(
    input: &[u8],
    cursor: &mut Cursor,
    writer: &mut Writer,
    out: &mut [u8],
    count: &mut u64,
    line: &mut u64,
) -> u64 {
    let (out, out_len) = (out.as_mut_ptr(), out.len());
    let (cursor, writer) = (cursor.as_mut_ptr(), writer.as_mut_ptr());
    unsafe { vcd_rewrite(input.as_ptr(), input.len(), cursor, CURSOR, writer, WRITER, out, out_len, count, line) }
}

pub fn list(input: &[u8], cursor: &mut Cursor, code: u64, rows: &mut [u64], count: &mut u64) -> u64 {
    let (rows, rows_len) = (rows.as_mut_ptr(), rows.len());
    unsafe { vcd_list(input.as_ptr(), input.len(), cursor.as_mut_ptr(), CURSOR, code, rows, rows_len, count) }
}

pub fn list_on(
    input: &[u8],
    cursor: &mut Cursor,
    since: &mut Since,
    code: u64,
    rows: &mut [u64],
    count: &mut u64,
) -> u64 {
    let (rows, rows_len) = (rows.as_mut_ptr(), rows.len());
    let (cursor, since) = (cursor.as_mut_ptr(), since.as_mut_ptr());
    unsafe { vcd_list_on(input.as_ptr(), input.len(), cursor, CURSOR, since, SINCE, code, rows, rows_len, count) }
}

pub fn change(rows: &[u64], i: usize, change: &mut Change) -> u64 {
    unsafe { vcd_change(rows.as_ptr(), rows.len(), i, change.as_mut_ptr(), CHANGE) }
}

pub fn widen(input: &[u8], start: usize, len: usize, width: u32, out: &mut [u8], count: &mut u64) -> u64 {
    let (out, out_len) = (out.as_mut_ptr(), out.len());
    unsafe { vcd_widen(input.as_ptr(), input.len(), start, len, width, out, out_len, count) }
}

pub fn id_text(code: u64, out: &mut [u8], count: &mut u64) -> u64 {
    unsafe { vcd_id_text(code, out.as_mut_ptr(), out.len(), count) }
}

pub fn id_code(text: &[u8], code: &mut u64) -> u64 {
    unsafe { vcd_id_code(text.as_ptr(), text.len(), code) }
}
