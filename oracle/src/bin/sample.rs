//! `sample SEED KIND`: chooses the recorded sample among the cases of a seed, and writes it to standard output.
use oracle::make::{is_command_word, Maker};
use oracle::{args, header, kind::Kind, reader, stream, tally};
use std::collections::HashMap;
use std::io::{self, BufWriter, Write};

/// Of so many cases.
const POOL: usize = 30_000;
/// So many are chosen.
const WANTED: usize = 1_500;
/// The first are all taken: they hold each simulator's dump whole.
const FIRST: usize = 100;
/// A sample of whole dumps has so many bytes beside the longest, which are fixed: of those that are not fixed it has only
/// short ones, and fewer for a mark.
const MOST: usize = 1 << 16;
const SHORT_DUMP: usize = 180;
const OFTEN_DUMP: usize = 3;
/// How often each mark is wanted.
const OFTEN: usize = 8;
/// A case longer than this is taken only for a mark that no other has,
const LONG: usize = 3_000;
/// and one longer than this only for a rare mark.
const SHORT: usize = 250;

fn main() -> io::Result<()> {
    let usage = "sample SEED KIND";
    let kind = args::kind(2, usage);
    let maker = Maker::new(kind, args::number(1, usage));
    let pool: Vec<Vec<u8>> = (0..POOL).map(|n| maker.case(n)).collect();
    let chosen = match kind {
        Kind::List | Kind::Reformat => fitting(kind, &pool, maker.recorded()),
        _ => chosen(kind, &pool),
    };
    let mut out = BufWriter::new(io::stdout().lock());
    for n in chosen {
        stream::put(&mut out, &pool[n])?;
    }
    if args::kind(2, usage) == Kind::Read {
        for (case, begins) in points() {
            let answer = Kind::Read.answer(0, &case);
            assert!(answer.starts_with(&format!("case 0\n{begins} ")), "{answer}");
            stream::put(&mut out, &case)?;
        }
    }
    out.flush()
}

/// The points of reading in document 01 that carry no star, with what it says of them. They stand behind the chosen cases.
fn points() -> [(Vec<u8>, &'static str); 4] {
    let of = |first: u8, byte: u8, many: usize| [vec![first], vec![byte; many], vec![b'\n']].concat();
    [
        (of(b'#', b'0', 32), "time 0"),
        (of(b'#', b'0', 33), "refused 4"),
        (of(b'$', b'q', 16), "refused 7"),
        (of(b'$', b'q', 17), "refused 4"),
    ]
}

/// Of whole dumps the fixed ones, then short ones: those with a mark that is still rare, others spread over the pool.
fn fitting(kind: Kind, pool: &[Vec<u8>], fixed: usize) -> Vec<usize> {
    let mut seen: HashMap<String, usize> = HashMap::new();
    let mut taken = Vec::new();
    let mut spare = Vec::new();
    let mut room = MOST + pool[..fixed].iter().map(|case| framed(case)).filter(|bytes| *bytes > MOST).sum::<usize>();
    for (n, case) in pool.iter().enumerate().filter(|(n, case)| *n < fixed || case.len() <= SHORT_DUMP) {
        let marks = marks(kind, case);
        if n < fixed || marks.iter().any(|mark| seen.get(mark).is_none_or(|times| *times < OFTEN_DUMP)) {
            marks.into_iter().for_each(|mark| *seen.entry(mark).or_default() += 1);
            room -= framed(case);
            taken.push(n);
        } else {
            spare.push(n);
        }
    }
    let all: usize = spare.iter().map(|n| framed(&pool[*n])).sum();
    let more = room * spare.len() / all;
    for n in (0..more).map(|k| spare[k * spare.len() / more]) {
        if framed(&pool[n]) <= room {
            room -= framed(&pool[n]);
            taken.push(n);
        }
    }
    taken.sort();
    taken
}

/// The bytes of a case in a stream, at most.
fn framed(case: &[u8]) -> usize {
    case.len() + 7
}

/// The first cases, those with a mark that is still rare, and then others spread over the pool.
fn chosen(kind: Kind, pool: &[Vec<u8>]) -> Vec<usize> {
    let mut seen: HashMap<String, usize> = HashMap::new();
    let mut taken = Vec::new();
    let mut spare = Vec::new();
    for (n, case) in pool.iter().enumerate() {
        let marks = marks(kind, case);
        let wanted = if case.len() > LONG { 1 } else { OFTEN };
        let rare = marks.iter().any(|mark| seen.get(mark).is_none_or(|times| *times < wanted));
        if n < FIRST || rare {
            for mark in marks {
                *seen.entry(mark).or_default() += 1;
            }
            taken.push(n);
        } else if case.len() <= SHORT {
            spare.push(n);
        }
    }
    let more = WANTED.saturating_sub(taken.len());
    taken.extend((0..more).map(|k| spare[k * spare.len() / more]));
    taken.sort();
    taken
}

/// What a case shows: its commands and refusals, their types, and what was being read at a refusal.
fn marks(kind: Kind, case: &[u8]) -> Vec<String> {
    let answer = kind.answer(0, case);
    let mut marks = Vec::new();
    let mut place = 0;
    let mut rows = 0;
    let alone = answer.lines().count() == 2;
    for line in answer.lines() {
        let name = tally::name(kind, line);
        if alone && matches!(kind, Kind::List | Kind::Reformat) {
            marks.extend(name.as_ref().map(|name| format!("{name}, alone")));
        }
        marks.extend(name);
        let words: Vec<&str> = line.split(' ').collect();
        match (kind, words[0]) {
            (Kind::Write | Kind::List | Kind::Reformat, _) => (),
            (_, "scope" | "var" | "begin" | "end") => marks.push(words[..2].join(" ")),
            (_, "timescale" | "scalar") if words.len() > 2 => marks.push(format!("{} {}", words[0], words[2])),
            (Kind::Read, "refused") if words[1] != "3" => {
                marks.push(format!("{} in {}", words[1], command_at(case, place)))
            }
            _ => (),
        }
        rows += matches!(words[0], "scope" | "var" | "comment") as usize;
        if kind == Kind::Read {
            place = words.last().and_then(|s| s.parse().ok()).unwrap_or(0);
        }
    }
    if kind == Kind::Header && rows == 4096 && header::split(case).0 > rows {
        marks.push(format!("the most rows, {}", answer.contains("\nheader ")));
    }
    marks
}

/// The first byte of the command at a place, or its word if there is such a word.
fn command_at(input: &[u8], place: usize) -> String {
    let start = reader::skip_blanks(input, place);
    let word = match input.get(start) {
        Some(b'$') => reader::token(input, start + 1).map_or(&b"?"[..], |word| &input[word]),
        Some(_) => &input[start..=start],
        None => b"",
    };
    match std::str::from_utf8(word) {
        Ok(word) if word.len() == 1 || is_command_word(word) => word.to_string(),
        _ => "?".to_string(),
    }
}
