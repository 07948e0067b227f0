//! Scripts of writer calls: texts good and odd, rooms round what is due, states round the limits.
use super::command::{size, Slot};
use super::odd::odd;
use crate::rng::Rng;
use crate::script::{self, State};
use crate::table::{ROW, TOP};
use crate::write::step;
use std::fmt::Write;

/// Texts for each sort of call.
pub struct Texts([Vec<Vec<u8>>; 4]);

const REMARK: usize = 0;
const NAME: usize = 1;
const VECTOR: usize = 2;
const REAL: usize = 3;

impl Texts {
    pub fn new() -> Texts {
        Texts([Slot::Remark, Slot::Name, Slot::Values, Slot::Real].map(odd))
    }

    fn pick(&self, sort: usize, rng: &mut Rng) -> Vec<u8> {
        let good: [&[&str]; 4] = [
            &["", "a b", "2005 é", "$en d"],
            &["a", "clk", "é", "$end"],
            &["0", "1xZ", "zzX0"],
            &["1.5", "-inf", "7e-3"],
        ];
        if rng.one_in(2) {
            return rng.pick(good[sort]).as_bytes().to_vec();
        }
        self.0[sort][rng.below(self.0[sort].len())].clone()
    }
}

/// A source: its bytes, and the texts in it with their sorts.
struct Source {
    bytes: Vec<u8>,
    texts: Vec<(usize, usize, usize)>,
}

impl Source {
    fn new(texts: &Texts, rng: &mut Rng) -> Source {
        let mut source = Source { bytes: Vec::new(), texts: Vec::new() };
        for sort in [REMARK, NAME, VECTOR, REAL, rng.below(4), rng.below(4), NAME] {
            let text = texts.pick(sort, rng);
            source.texts.push((sort, source.bytes.len(), text.len()));
            source.bytes.extend(text);
        }
        source
    }

    /// Mostly a text of the sort; else a part of the source, or a place outside of it.
    fn text(&self, sort: usize, rng: &mut Rng) -> String {
        let length = self.bytes.len();
        match rng.below(20) {
            0 => {
                let start = rng.below(length + 1);
                format!("{start} {}", rng.below(length + 1 - start))
            }
            1 => format!("{} {}", rng.below(length + 3), rng.below(length + 3)),
            2 => format!("{} {}", rng.pick(&[0, 1, u64::MAX]), rng.pick(&[u64::MAX, u64::MAX - 1, 1, 0])),
            _ => {
                let of_sort: Vec<_> = self.texts.iter().filter(|t| t.0 == sort).collect();
                let (_, start, length) = rng.pick(&of_sort);
                format!("{start} {length}")
            }
        }
    }
}

fn id(rng: &mut Rng) -> u64 {
    match rng.below(4) {
        0 => size(rng),
        1 => rng.pick(&[u64::MAX, u64::MAX - 1, u64::MAX - 2, 93, 94]),
        _ => rng.below(6) as u64,
    }
}

fn width(rng: &mut Rng) -> u32 {
    rng.pick(&[1, 8, 0, 32, u32::MAX, 64])
}

fn index(rng: &mut Rng) -> String {
    match rng.below(4) {
        0 => format!("1 {}", rng.pick(&[0, -1, i32::MIN, i32::MAX])),
        1 => format!("2 {} {}", rng.pick(&[7, i32::MIN]), rng.pick(&[0, -4, i32::MAX])),
        _ => "0".to_string(),
    }
}

/// A call's numbers, as a line of a script has them after the room.
fn call(source: &Source, rng: &mut Rng) -> String {
    let number = 1 + rng.below(19);
    let rest = match number {
        1..=3 => source.text(REMARK, rng),
        4 => {
            let quantity = [1, 10, 0, 99_999_999, 100_000_000, u32::MAX, 100];
            format!("{} {}", rng.pick(&quantity), rng.below(6))
        }
        5 => format!("{} {}", rng.below(5), source.text(NAME, rng)),
        6 => source.text(NAME, rng),
        8 => format!("{} {} {} {} {}", rng.below(18), width(rng), id(rng), source.text(NAME, rng), index(rng)),
        9 => format!("{} {} {} {}", rng.below(18), width(rng), source.text(NAME, rng), index(rng)),
        10 => format!("{} {}", width(rng), source.text(NAME, rng)),
        12 => size(rng).to_string(),
        13 => format!("{} {}", id(rng), rng.below(4)),
        14 => format!("{} {}", id(rng), source.text(VECTOR, rng)),
        15 => format!("{} {}", id(rng), source.text(REAL, rng)),
        16 => format!("{} {}", id(rng), source.text(NAME, rng)),
        17 | 18 => (1 + rng.below(4)).to_string(),
        19 => table(source, rng),
        _ => return number.to_string(),
    };
    format!("{number} {rest}")
}

/// The words of an index.
fn index_words(rng: &mut Rng) -> String {
    match rng.below(4) {
        0 => format!("1 {} 0", rng.pick(&[0u32, 1, u32::MAX, 1 << 31])),
        1 => format!("2 {} {}", rng.pick(&[7u32, 1 << 31]), rng.pick(&[0u32, u32::MAX - 3])),
        _ => "0 0 0".to_string(),
    }
}

fn row(source: &Source, parent: u64, rng: &mut Rng) -> (bool, String) {
    let (name, remark) = (source.text(NAME, rng), source.text(REMARK, rng));
    match rng.below(4) {
        0 => (false, format!("3 {parent} 0 0 0 {remark} 0 0 0")),
        1 => {
            let (width, id) = (width(rng), id(rng));
            (false, format!("2 {parent} {} {width} {id} {name} {}", rng.below(18), index_words(rng)))
        }
        _ => (true, format!("1 {parent} {} 0 0 {name} 0 0 0", rng.below(5))),
    }
}

/// A header's head and table: rows in tree order, sometimes one past 64 scopes; then often a word changed, or too few
/// or too many rows asked for.
fn table(source: &Source, rng: &mut Rng) -> String {
    let mut open = Vec::new();
    let mut words: Vec<u64> = Vec::new();
    let numbers = |s: &str| -> Vec<u64> { s.split(' ').map(|n| n.parse().expect("a word")).collect() };
    let deep = if rng.one_in(16) { 63 + rng.below(3) } else { 0 };
    let few = rng.below(7);
    for n in 0..deep + few {
        let parent = if n < deep { open.last().copied() } else { rng.pick(&[open.first().copied(), open.last().copied(), None]) };
        open.truncate(parent.map_or(0, |p| 1 + open.iter().position(|o| *o == p).expect("an open scope")));
        let (is_scope, row) = match n < deep {
            true => (true, format!("1 {} 0 0 0 {} {} 0 0 0", parent.unwrap_or(TOP), source.texts[1].1, source.texts[1].2)),
            false => row(source, parent.unwrap_or(TOP), rng),
        };
        words.extend(numbers(&row));
        if is_scope {
            open.push(n as u64);
        }
    }
    let mut count = (words.len() / ROW) as u64;
    match rng.below(8) {
        0 => count = rng.pick(&[count + 1, count.saturating_sub(1), u64::MAX, 4097]),
        1 | 2 if !words.is_empty() => {
            let at = rng.below(words.len());
            words[at] = rng.pick(&[0, 1, 2, 3, 5, 18, TOP, 1 << 32]);
        }
        3 => words.extend((0..rng.below(ROW)).map(|n| n as u64)),
        _ => (),
    }
    let kept = |sort: &str| format!("1 {sort}");
    let mut head = [count.to_string(), "0 0 0".into(), "0 0 0".into(), "0 0 0".into()];
    for (at, of) in [(1, source.text(REMARK, rng)), (2, source.text(REMARK, rng)), (3, format!("{} {}", rng.pick(&[1, 99_999_999, 100_000_000]), rng.below(6)))] {
        if rng.one_in(3) {
            head[at] = kept(&of);
        }
    }
    let mut line = head.join(" ");
    for word in words {
        let _ = write!(line, " {word}");
    }
    line
}

/// The longest output that a case lends to a call.
const MOST_ROOM: usize = 4096;

/// A room that is ample, just enough, just too little or far too little.
fn room(due: usize, rng: &mut Rng) -> usize {
    let room = match rng.below(8) {
        0 => due,
        1 => due.saturating_sub(1),
        2 => due + 1,
        3 => rng.below(due + 1),
        _ => 2000,
    };
    room.min(MOST_ROOM)
}

fn state(rng: &mut Rng) -> (State, usize) {
    let depth = rng.pick(&[0, 0, 0, 1, 1, 2, 63, 64, 65]);
    let next = if rng.one_in(4) { id(rng) } else { 0 };
    let open = if rng.one_in(2) { 0 } else { rng.below(5) };
    (State { depth, next, open: script::simulation(open) }, open)
}

/// A script of some calls.
pub fn some(texts: &Texts, rng: &mut Rng) -> Vec<u8> {
    let source = Source::new(texts, rng);
    let (mut state, open) = state(rng);
    let first = format!("{} {} {} {open}\n", source.bytes.len(), state.depth, state.next);
    let mut calls = String::from("\n");
    for _ in 0..1 + rng.below(12) {
        let line = call(&source, rng);
        let (_, call) = script::call(&line);
        let due = step(&source.bytes, state, &call, usize::MAX).1.bytes.len();
        let room = room(due, rng);
        state = step(&source.bytes, state, &call, room).1.state;
        let _ = writeln!(calls, "{room} {line}");
    }
    [first.as_bytes(), &source.bytes, calls.as_bytes()].concat()
}

/// A source in which every part is tried as the text of every call.
const PARTS: &str = "$end a\u{a0}b \u{2003}$en$e 01xXzZ2\t-1.5e+3.inf NaN\n\u{85}é😀\u{feff}[7]\u{b}\"";

/// The text calls, as the numbers before and after the text.
const CALLS: &[(&str, &str)] = &[
    ("1", ""),
    ("2", ""),
    ("3", ""),
    ("5 4", ""),
    ("6", ""),
    ("8 4 8 5", " 1 -2"),
    ("9 3 64", " 0"),
    ("10 1", ""),
    ("14 3", ""),
    ("15 4", ""),
    ("16 5", ""),
];

const LONGEST: usize = 12;
const A_SCRIPT: usize = 6;

pub fn parts() -> usize {
    CALLS.len() * (PARTS.len() + 1) * (LONGEST + 1) / A_SCRIPT
}

/// Script `n` of those that try every part of one source, a few calls each.
pub fn nth_part(n: usize) -> Vec<u8> {
    let mut out = format!("{} 1 0 0\n{PARTS}\n", PARTS.len());
    for part in n * A_SCRIPT..(n + 1) * A_SCRIPT {
        let (before, after) = CALLS[part % CALLS.len()];
        let place = part / CALLS.len();
        let (start, length) = (place / (LONGEST + 1), place % (LONGEST + 1));
        let _ = writeln!(out, "99 {before} {start} {length}{after}");
    }
    out.into_bytes()
}
