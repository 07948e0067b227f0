//! Whole dumps: a header of few codes, and changes that are mostly of them.
use super::command::*;
use super::damage::damaged;
use crate::rng::Rng;
use crate::script::VARS;

const CODES: &[&str] = &["!", "\"", "#", "$", "0", "b", "!!", "~~~", "$end", "n999999999"];
const WIDTHS: &[u32] = &[0, 1, 1, 2, 4, 8, 8, 32, 64, 1_023, 1_024, 1_025, u32::MAX];
const NAMES: &[&str] = &["a", "clk", "u_core", "data[3]", "é", "q$", "-", "full"];
const REALS: &[&str] = &["1.5", "-2e-3", "inf", "NaN", "0", ".25", "7.", "+1E9", "1.50", "-Infinity"];
/// What reading or writing refuses, or lets pass, behind a header.
const STRAY: &[&[u8]] = &[
    b"q\n", b"$end ", b"b2 !\n", b"rx !\n", b"#x\n", b"#\n", b"0\x7f ", b"$foo\n", b"s\xff !\n", b"0", b"b1", b"r1 ",
    b"#1", b"$comment x", b"$upscope $end ", b"$var wire 1 ! a $end\n", b"$enddefinitions $end\n",
    b"$scope fork f $end ", b"$date d $end", b"$timescale 1 ns $end\n", b"1n9999999999 ",
];

/// A few codes, one of them twice as often.
struct Codes(Vec<&'static str>);

impl Codes {
    fn new(rng: &mut Rng) -> Codes {
        Codes((0..2 + rng.below(3)).map(|_| rng.pick(CODES)).collect())
    }

    fn pick(&self, rng: &mut Rng) -> &'static str {
        if rng.one_in(20) {
            return rng.pick(CODES);
        }
        rng.pick(&self.0)
    }
}

/// A whole dump; now and then its last byte is missing.
pub fn some(rng: &mut Rng) -> Vec<u8> {
    let codes = Codes::new(rng);
    let mut out = Vec::new();
    header(&mut out, &codes, rng);
    let count = rng.below(20);
    data(&mut out, &codes, count, rng);
    if rng.one_in(6) {
        out.extend_from_slice(rng.pick(STRAY));
        data(&mut out, &codes, 5, rng);
    }
    if rng.one_in(12) {
        out.pop();
    }
    out
}

fn header(out: &mut Vec<u8>, codes: &Codes, rng: &mut Rng) {
    for _ in 0..rng.below(3) {
        put(out, rng.pick(&[COMMENT, DATE, VERSION, TIMESCALE]), None, rng);
    }
    let at_top = rng.one_in(8);
    let mut depth = if rng.one_in(60) { 60 + rng.below(6) } else { 0 };
    out.extend_from_slice(&b"$scope fork f $end\n".repeat(depth));
    for _ in 0..1 + rng.below(9) {
        match rng.below(10) {
            0 | 1 => scope(out, &mut depth, rng),
            2 if depth > 0 => {
                put(out, UPSCOPE, None, rng);
                depth -= 1;
            }
            3 => put(out, COMMENT, None, rng),
            4 if rng.one_in(20) => put(out, rng.pick(COMMANDS), None, rng),
            _ if depth > 0 || at_top => var(out, codes, rng),
            _ => scope(out, &mut depth, rng),
        }
    }
    if rng.one_in(40) {
        depth = depth.saturating_sub(1);
    }
    for _ in 0..depth {
        put(out, UPSCOPE, None, rng);
    }
    put(out, ENDDEFINITIONS, None, rng);
}

fn scope(out: &mut Vec<u8>, depth: &mut usize, rng: &mut Rng) {
    put(out, SCOPE, None, rng);
    *depth += 1;
}

fn var(out: &mut Vec<u8>, codes: &Codes, rng: &mut Rng) {
    let (sort, width, code, name) = (rng.pick(&VARS), rng.pick(WIDTHS), codes.pick(rng), rng.pick(NAMES));
    let index = rng.pick(&["", "", "[7:0] ", "[-1] "]);
    let text = format!("$var {sort} {width} {code} {name} {index}$end{}", blank(rng));
    out.extend_from_slice(text.as_bytes());
}

fn data(out: &mut Vec<u8>, codes: &Codes, count: usize, rng: &mut Rng) {
    let mut time = if rng.one_in(10) { size(rng) } else { 0 };
    for _ in 0..count {
        match rng.below(40) {
            0 => put(out, COMMENT, None, rng),
            1 => out.extend_from_slice(rng.pick(&[b"$dumpvars ", b"$dumpoff\n ", b"$dumpall  "])),
            2 => out.extend_from_slice(b"$dumpon $end\n"),
            3..=11 => {
                time = time.wrapping_add(rng.below(12) as u64);
                out.extend_from_slice(format!("#{time}{}", blank(rng)).as_bytes());
            }
            _ => change(out, codes.pick(rng), rng),
        }
    }
}

fn change(out: &mut Vec<u8>, code: &str, rng: &mut Rng) {
    let value = |rng: &mut Rng| rng.pick(&['0', '1', 'x', 'X', 'z', 'Z']);
    let first = match rng.below(8) {
        0 => format!("{}{} ", rng.pick(&["r", "R"]), rng.pick(REALS)),
        1 => format!("{}{} ", rng.pick(&["s", "S"]), rng.pick(NAMES)),
        2..=4 => {
            let values: String = (0..1 + rng.below(9)).map(|_| value(rng)).collect();
            format!("{}{values}{}", rng.pick(&["b", "B"]), blank(rng))
        }
        _ => value(rng).to_string(),
    };
    out.extend_from_slice(format!("{first}{code}{}", blank(rng)).as_bytes());
}

/// A command with an odd token in the header or behind it.
pub fn with_odd(command: &[Slot], odd: (usize, &[u8]), rng: &mut Rng) -> Vec<u8> {
    let codes = Codes::new(rng);
    let mut out = Vec::new();
    put(&mut out, SCOPE, None, rng);
    var(&mut out, &codes, rng);
    let behind = rng.one_in(2);
    if !behind {
        put(&mut out, command, Some(odd), rng);
    }
    put(&mut out, UPSCOPE, None, rng);
    put(&mut out, ENDDEFINITIONS, None, rng);
    data(&mut out, &codes, 2, rng);
    if behind {
        put(&mut out, command, Some(odd), rng);
    }
    data(&mut out, &codes, 2, rng);
    out
}

pub fn damaged_some(rng: &mut Rng) -> Vec<u8> {
    let dump = some(rng);
    damaged(&dump, rng.draw() as usize)
}

/// Long dumps: round 1,024 changes, 256 rows, 65,536 bytes written, or 65,536 bytes with a long text.
pub fn long(rng: &mut Rng) -> Vec<u8> {
    let codes = Codes::new(rng);
    let mut out = Vec::new();
    match rng.below(4) {
        0 => {
            header(&mut out, &codes, rng);
            let count = 900 + rng.below(3_000);
            data(&mut out, &Codes(vec![codes.0[0]]), count, rng);
        }
        1 => {
            put(&mut out, SCOPE, None, rng);
            (0..250 + rng.below(8)).for_each(|_| var(&mut out, &codes, rng));
            put(&mut out, UPSCOPE, None, rng);
            put(&mut out, ENDDEFINITIONS, None, rng);
            data(&mut out, &codes, 20, rng);
        }
        2 => {
            let comment = format!("$comment {} $end", "c".repeat(241 - rng.below(7)));
            out.extend_from_slice(comment.repeat(254 + rng.below(3)).as_bytes());
            put(&mut out, ENDDEFINITIONS, None, rng);
            data(&mut out, &codes, 5, rng);
        }
        _ => with_long_text(&mut out, &codes, rng),
    }
    out
}

fn with_long_text(out: &mut Vec<u8>, codes: &Codes, rng: &mut Rng) {
    header(out, codes, rng);
    data(out, codes, 9, rng);
    let text = rng.pick(&["1", "xZ"]).repeat(rng.pick(&[500, 10_000, 30_000]));
    let first = rng.pick(&["b", "s", "B", "S"]);
    out.extend_from_slice(format!("{first}{text} {}\n", codes.pick(rng)).as_bytes());
    data(out, codes, 9, rng);
    let missing = (65_530 + rng.below(12)).saturating_sub(out.len() + "$comment  $end".len());
    out.extend_from_slice(format!("$comment {} $end", " ".repeat(missing)).as_bytes());
}
