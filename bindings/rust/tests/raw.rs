//! The exported functions that the crate's shapes do not need: listing, widening, rewriting, whole headers and look-ups, held to the
//! recorded answers of the programs vcd_list, vcd_reformat and find_tests.
mod common;
use common::{answers, cases, dumps, file};
use vcd_proved::raw::{self, CHANGE, CURSOR_START, HEAD, LIST_FULL, NONE, OK, ROW, SINCE_START, WRITER_START};
use vcd_proved::{Command, IdCode, Parser};

/// The programs' limits.
const TAKEN: usize = 65536;
const HEADER: usize = 256;
const LISTING: usize = 1024;

struct Read {
    cursor: raw::Cursor,
    rows: Vec<u64>,
    head: raw::Head,
    status: u64,
}

fn read_header(dump: &[u8]) -> Read {
    let mut read = Read { cursor: CURSOR_START, rows: vec![0; HEADER * ROW], head: [0; HEAD], status: OK };
    read.status = raw::header(dump, &mut read.cursor, &mut read.rows, &mut read.head);
    read
}

fn part(dump: &[u8], start: u64, len: u64) -> &[u8] {
    &dump[start as usize..][..len as usize]
}

fn refused(number: u64, line: u64) -> Vec<u8> {
    format!("refused {number} at {line}\n").into_bytes()
}

fn value(dump: &[u8], change: &raw::Change, width: u64) -> Vec<u8> {
    let [_, _, _, kind, start, len] = *change;
    let (mut out, mut count) = (vec![0; TAKEN + 1024], 0);
    match kind {
        1 | 2 => {
            let width = if kind == 1 { 1 } else { width as u32 };
            assert_eq!(raw::widen(dump, start as usize, len as usize, width, &mut out, &mut count), OK);
            out[..count as usize].to_vec()
        }
        _ => part(dump, start, len).to_vec(),
    }
}

fn list_var(dump: &[u8], mut cursor: raw::Cursor, row: &raw::Row, out: &mut Vec<u8>) -> Vec<u8> {
    let reference = part(dump, row[5], row[6]);
    let (mut rows, mut count) = (vec![0; LISTING * CHANGE], 0);
    let status = raw::list(dump, &mut cursor, row[4], &mut rows, &mut count);
    for i in 0..count as usize {
        let mut change = [0; CHANGE];
        assert_eq!(raw::change(&rows, i, &mut change), OK);
        let time = if change[0] == 0 { "-".to_string() } else { change[1].to_string() };
        out.extend(
            [reference, format!(" {time} {} ", change[2]).as_bytes(), &value(dump, &change, row[3]), b"\n"].concat(),
        );
    }
    match status {
        OK => Vec::new(),
        24 => {
            out.extend([reference, b" full\n"].concat());
            Vec::new()
        }
        number => refused(number, cursor[1]),
    }
}

fn list(dump: &[u8]) -> Vec<u8> {
    let read = read_header(dump);
    if dump.len() > TAKEN {
        return b"input too long\n".to_vec();
    }
    if read.status != OK {
        return refused(read.status, read.cursor[1]);
    }
    let (mut out, mut last) = (Vec::new(), Vec::new());
    for i in 0..read.head[0] as usize {
        let mut row = [0; ROW];
        assert_eq!(raw::row(&read.rows, i, &mut row), OK);
        if row[0] == 2 {
            let met = list_var(dump, read.cursor, &row, &mut out);
            last = if met.is_empty() { last } else { met };
        }
    }
    out.extend(last);
    out
}

fn reformat(dump: &[u8]) -> Vec<u8> {
    let Read { mut cursor, rows, head, status } = read_header(dump);
    if dump.len() > TAKEN {
        return b"input too long\n".to_vec();
    }
    if status != OK {
        return refused(status, cursor[1]);
    }
    let (mut writer, mut room, mut count) = (WRITER_START, vec![0; TAKEN], 0);
    let status = raw::write_header(&mut writer, dump, &head, &rows, &mut room, &mut count);
    let mut out = room[..count as usize].to_vec();
    if status != OK {
        out.extend(refused(status, cursor[1]));
        return out;
    }
    loop {
        let mut line = 0;
        let status = raw::rewrite(dump, &mut cursor, &mut writer, &mut room, &mut count, &mut line);
        out.extend(&room[..count as usize]);
        match status {
            OK => return out,
            raw::NO_ROOM if count > 0 => {}
            number => {
                out.extend(refused(number, line));
                return out;
            }
        }
    }
}

fn compare(kind: &str, answer: impl Fn(&[u8]) -> Vec<u8>) {
    let mut all = Vec::new();
    for (n, case) in cases(kind).iter().enumerate() {
        all.extend(format!("case {n}\n").into_bytes());
        all.extend(answer(case));
    }
    assert!(all == answers(kind), "{kind} differs from the recorded answers");
}

#[test]
fn listings_are_as_recorded() {
    compare("list", list);
}

/// The rows, how the listing ended, and the cursor and the time then: by pages of so many rows.
fn pages(dump: &[u8], mut cursor: raw::Cursor, code: u64, lent: usize) -> (Vec<u64>, u64, raw::Cursor, raw::Since) {
    let (mut all, mut rows, mut since, mut count) = (Vec::new(), vec![0; lent * CHANGE], SINCE_START, 0);
    loop {
        let status = raw::list_on(dump, &mut cursor, &mut since, code, &mut rows, &mut count);
        all.extend(&rows[..count as usize * CHANGE]);
        if status != LIST_FULL {
            return (all, status, cursor, since);
        }
        assert_eq!(count as usize, lent);
    }
}

#[test]
fn pages_joined_are_the_one_listing() {
    let mut listings = 0;
    for dump in cases("list") {
        let read = read_header(&dump);
        for row in read.rows[..read.head[0] as usize * ROW].chunks(ROW).filter(|row| row[0] == 2) {
            let whole = pages(&dump, read.cursor, row[4], 100_000);
            for lent in [1, 3, 7] {
                assert!(pages(&dump, read.cursor, row[4], lent) == whole, "pages of {lent} rows");
            }
            listings += 1;
        }
    }
    println!("{listings} listings by pages");
    assert!(listings > 100);
}

/// The times and lines of a code's changes, by the commands.
fn told(parser: &mut Parser<&[u8]>, code: IdCode) -> Vec<(Option<u64>, u64)> {
    let (mut time, mut told) = (None, Vec::new());
    while let Some(Ok(command)) = parser.next_command() {
        match command {
            Command::Timestamp(t) => time = Some(t),
            Command::ChangeScalar(i, _) | Command::ChangeVector(i, _) if i == code => told.push((time, parser.line())),
            Command::ChangeReal(i, _) | Command::ChangeString(i, _) if i == code => told.push((time, parser.line())),
            _ => {}
        }
    }
    told
}

#[test]
fn changes_are_those_of_the_commands() {
    for dump in dumps() {
        let mut parser = Parser::new(&dump[..]);
        let listed: Vec<_> =
            parser.changes(IdCode::FIRST, None).map_while(|c| c.ok()).map(|c| (c.time, c.line)).collect();
        assert_eq!(listed, told(&mut parser, IdCode::FIRST));
    }
}

#[test]
fn rewritten_dumps_are_as_recorded() {
    compare("reformat", reformat);
}

fn found(dump: &[u8], rows: &[u64], n: u64) -> String {
    let mut row = [0; ROW];
    if n == NONE {
        return "-".to_string();
    }
    assert_eq!(raw::row(rows, n as usize, &mut row), OK);
    String::from_utf8_lossy(part(dump, row[5], row[6])).into_owned()
}

/// The exported look-ups and those over the tree find what the crate finds.
#[test]
fn look_ups_are_as_recorded() {
    let input = file("crates/find_tests/stdin");
    let recorded = String::from_utf8(file("crates/find_tests/stdout")).unwrap();
    let mut wanted = recorded.lines().map(|l| l.rsplit(' ').next().unwrap());
    let Read { cursor, rows, head, .. } = read_header(&input);
    let header = vcd_proved::Parser::new(&input).parse_header().unwrap();
    let theirs = vcd::Parser::new(&input[..]).parse_header().unwrap();
    let paths = std::str::from_utf8(&input[cursor[0] as usize..]).unwrap();
    let mut row = 0;
    for path in paths.strip_prefix("--\n").unwrap().lines() {
        let (count, bytes) = (head[0] as usize, path.as_bytes());
        assert_eq!(raw::find_scope(&input, &rows, count, bytes, &mut row), OK);
        assert_eq!(found(&input, &rows, row), wanted.next().unwrap(), "scope {path:?}");
        assert_eq!(raw::find_var(&input, &rows, count, bytes, &mut row), OK);
        assert_eq!(found(&input, &rows, row), wanted.next().unwrap(), "var {path:?}");
        let names: Vec<&str> = if path.is_empty() { Vec::new() } else { path.split(' ').collect() };
        assert_eq!(format!("{:?}", header.find_scope(&names)), format!("{:?}", theirs.find_scope(&names)));
        assert_eq!(format!("{:?}", header.find_var(&names)), format!("{:?}", theirs.find_var(&names)));
    }
    assert_eq!(wanted.next(), None);
}

/// A row whose text lies outside the input is refused, and nothing is stored.
#[test]
fn rows_outside_are_not_found() {
    let rows = [1, NONE, 0, 0, 0, 0, 9, 0, 0, 0];
    let mut row = 7;
    assert_eq!(raw::find_scope(b"abc", &rows, 1, b"abc", &mut row), raw::BAD_PLACE);
    assert_eq!(raw::find_var(b"abc", &rows, 1, b"abc", &mut row), raw::BAD_PLACE);
    assert_eq!(row, 7);
}
