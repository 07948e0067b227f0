//! Odd tokens for each place of a command: at the limits, every form of a number, text that is not ASCII.
use super::command::Slot;
use vcd::IdCode;

type Tokens = Vec<Vec<u8>>;

/// All characters of Unicode's White_Space.
const WHITE_SPACE: &[char] = &[
    '\t', '\n', '\u{b}', '\u{c}', '\r', ' ', '\u{85}', '\u{a0}', '\u{1680}', '\u{2000}', '\u{2001}', '\u{2002}',
    '\u{2003}', '\u{2004}', '\u{2005}', '\u{2006}', '\u{2007}', '\u{2008}', '\u{2009}', '\u{200a}', '\u{2028}',
    '\u{2029}', '\u{202f}', '\u{205f}', '\u{3000}',
];

/// Characters that look like blanks, or stand next to them, and are not.
const NO_WHITE_SPACE: &[char] = &[
    '\u{8}', '\u{e}', '\u{1c}', '\u{1f}', '\u{84}', '\u{86}', '\u{9f}', '\u{a1}', '\u{167f}', '\u{1681}', '\u{180e}',
    '\u{1fff}', '\u{200b}', '\u{2027}', '\u{202a}', '\u{202e}', '\u{2030}', '\u{205e}', '\u{2060}', '\u{2fff}',
    '\u{3001}', '\u{feff}',
];

/// Not ASCII, some of it numeric for Rust; and the borders of UTF-8's lengths.
const FOREIGN: &[&str] = &[
    "é", "²", "½", "٣", "１", "Ⅷ", "😀", "a\u{a0}", "\u{2003}1", "\u{3000}", "\u{feff}", "1²", "1٣", "wireé", "\u{80}",
    "\u{7ff}", "\u{800}", "\u{d7ff}", "\u{e000}", "\u{ffff}", "\u{10000}", "\u{10ffff}",
];

/// Not UTF-8.
const BROKEN: &[&[u8]] = &[
    b"\x80", b"\xbf", b"\xff", b"\xfe", b"\xc3", b"a\xc3", b"\xc3(", b"\xc0\x80", b"\xc1\xbf", b"\xe2\x82",
    b"\xe2(\xa1", b"\xe0\x80\x80", b"\xe0\x9f\xbf", b"\xed\xa0\x80", b"\xed\xbf\xbf", b"\xf0\x9f\x98",
    b"\xf0\x80\x80\x80", b"\xf0\x8f\xbf\xbf", b"\xf4\x90\x80\x80", b"\xf5\x80\x80\x80", b"1\x80", b"$end\x80",
];

const MIXED: &[&[u8]] = &[
    b"\x00", b"\x01", b"\x7f", b"\x0b", b"\x0c", b"a\x0bb", b"$end", b"$End", b"$end$end", b"$", b"\\", b"-", b"+",
    b"[", b"]", b"[0]", b"0", b"b", b"\"", b"!", b"~", b" ", b"\n", b"\r\n\t ",
];

const INTEGERS: &[&str] = &[
    "0", "00", "+0", "-0", "1", "+1", "-1", "++1", "+-1", "-+1", "1+", "1-", "1_000", "1,000", "0x10", "1.0", "1e3",
    "8b", "4294967294", "4294967295", "4294967296", "+4294967295", "9999999999", "04294967295", "18446744073709551614",
    "18446744073709551615", "18446744073709551616", "+18446744073709551615", "99999999999999999999",
    "184467440737095516150", "00000000000018446744073709551615", "000000000000018446744073709551615", "2147483647",
    "2147483648", "-2147483648", "-2147483649",
];

const REALS: &[&str] = &[
    "0", "-0", "+0", "1", "-1", "+1", "1.", "1.5", ".5", ".", "-.", "+.5", "-.5", "-5.", "1..2", "1.2.3", "--1", "+-1",
    "1e5", "1E5", "1e+5", "1e-5", "1E+05", "1.e5", ".5e5", ".e5", "e5", "1e", "1e+", "1e-", "1ee5", "1e5e5", "1e5.5",
    "1e400", "-1e400", "1e-400", "1e99999999999999999999", "1e-99999999999999999999", "inf", "INF", "InF", "-inf",
    "+inf", "infinity", "Infinity", "-INFINITY", "+infinity", "infin", "infinit", "infinityx", "in", "i", "nan", "NaN",
    "NAN", "-nan", "+NaN", "na", "nann", "nan(0)", "0x1p3", "1_0", "1,5", "1f", "1f64", "ınf", "1e５", "٣",
    "12345678901234567890123456789012", "123456789012345678901234567890123", "0.0000000000000000000000000000001",
    "9007199254740993", "2.2250738585072014e-308", "4.9e-324", "1.7976931348623157e308", "0.1", "1e22", "1e23",
];

const SCALES: &[&str] = &[
    "1", "10", "100", "0", "00", "1s", "1ms", "1us", "1ns", "1ps", "1fs", "10ns", "100ps", "0s", "ns", "s", "+1ns",
    "-1ns", "1 s", "1 ns", "1Ns", "1NS", "1n", "1nss", "1as", "1.5ns", "1$end", "$end", "99999999", "99999999 s",
    "9999999s", "99999999s", "00000001", "000000001", "1µs", "1μs", "µs", "1²", "² ns", "1² ns", "1²ns", "²", "٣",
    "٣ns", "1٣ ns", "nsé", "1é", "é", "é ns", "1１", "½", "1½ns", "1nsé", "1234567²", "123456²", "12345😀", "1234😀",
    "²²²²", "²²²²s", "1234567\u{a0}", "1\u{a0}ns",
];

const UNITS: &[&str] =
    &["S", "MS", "NS", "n", "nss", "sec", "nanosecs", "nanosecon", "1", "1s", "", "µs", "²", "s$end"];

const INDEXES: &[&str] = &[
    "[", "]", "[]", "[:]", "[1:]", "[:1]", "[1", "1]", "[1]]", "[[1]", "[[1]]", "[1]x", "[1]$end", "[1:2", "[1:2:3]",
    "[1::2]", "[1-2]", "[0]", "[00]", "[+1]", "[-1]", "[-0]", "[+-1]", "[+]", "[-]", "[7:0]", "[0:7]", "[-1:-8]",
    "[+7:+0]", "[2147483647]", "[2147483648]", "[-2147483648]", "[-2147483649]", "[2147483647:-2147483648]",
    "[0:2147483648]", "[-2147483649:0]", "[1.0]", "[a]", "[1:a]", "[a:1]", "[ 1]", "[1 ]", "[7 : 0]",
    "[000000000000000000000000000001]", "[0000000000000000000000000000001]", "[00000000000000:0000000000000001]",
    "[00000000000000:00000000000000001]", "[٣]", "[１:0]", "x[1]",
];

const REMARKS: &[&str] = &[
    "", " ", "  ", "\n", "\r\n", "\t a \t", "$", "$$", "$e", "$en", "$en ", "$$end", "$e$end", "$en$end", "$end",
    "a$end b", "$END", "$End", "end", "$ end", "$\u{a0}end", "a\nb\n\nc", "\n\n\n", "é", "é ", "a é b", "\u{0}",
    "x$enx$endx ",
];

const NAMES: &[&str] = &[
    "$end", "[3]", "[3:0]", "a[3]", "\\esc+aped", "$", "a.b", "()", "-", "top\u{a0}", "\u{2003}", "é", "😀",
    "\u{feff}a", "very_long_name_of_more_than_thirty_two_bytes_that_no_limit_may_cut_short",
];

/// Command words with a letter too few, too many or other, and the longest that are read.
const WORDS: &[&str] = &[
    "comment", "Comment", "commen", "comments", "comment$end", "date", "dat", "version", "timescale", "timescal",
    "timescales", "scope", "scop", "upscope", "var", "va", "vars", "enddefinitions", "enddefinition",
    "enddefinitionss", "end", "End", "en", "endd", "dumpall", "dumpoff", "dumpon", "dumpvars", "dumpports", "vcdclose",
    "dumpvarsx", "DUMPVARS", "enddefinitions$end", "abcdefghijklmnop", "abcdefghijklmnopq", "$end",
];

fn texts(list: &[&str]) -> Tokens {
    list.iter().map(|s| s.as_bytes().to_vec()).collect()
}

fn raw(list: &[&[u8]]) -> Tokens {
    list.iter().map(|s| s.to_vec()).collect()
}

/// Tokens at the limits 8, 16 and 32 and one past each, plain, ended by a character of two bytes, and broken.
fn at_limits() -> Tokens {
    let mut tokens = Vec::new();
    for limit in [8, 16, 32] {
        for end in ["", "é"] {
            for length in limit - 1..=limit + 1 {
                tokens.push(["a".repeat(length - end.len()).as_bytes(), end.as_bytes()].concat());
            }
        }
        for length in limit - 1..=limit + 1 {
            tokens.push("0".repeat(length).into_bytes());
            tokens.push([&b"\xff"[..], "1".repeat(length - 1).as_bytes()].concat());
            tokens.push(["$".repeat(length - 1).as_bytes(), b"\xff"].concat());
        }
    }
    tokens.push("z".repeat(300).into_bytes());
    tokens
}

/// What every token is tried with.
fn common() -> Tokens {
    [at_limits(), texts(FOREIGN), raw(BROKEN), raw(MIXED)].concat()
}

/// Ids round 2^64, and a bad byte at every place of a long one: from the last byte, 17 or 18 comes first.
fn ids() -> Tokens {
    let codes = [0, 93, 94, 188, 8929, 8930, u64::MAX - 2, u64::MAX - 1, u64::MAX];
    let mut tokens: Tokens = codes.iter().map(|c| IdCode::from(*c).to_string().into_bytes()).collect();
    tokens.extend(texts(&["n999999999", "n9999999999", "!!!!!!!!!!", "!!!!!!!!!!!", "~~~~~~~~~", "~~~~~~~~~~"]));
    let top = IdCode::from(u64::MAX - 1).to_string().into_bytes();
    for at in 0..top.len() {
        for step in [-1i8, 1] {
            let mut near = top.clone();
            near[at] = near[at].wrapping_add_signed(step);
            tokens.push(near);
        }
    }
    for length in [1, 2, 9, 10, 11, 12, 32] {
        for at in 0..length {
            for bad in [&b"\x7f"[..], b"\x0b", "é".as_bytes()] {
                let (head, tail) = ("~".repeat(at), "~".repeat(length - at - 1));
                tokens.push([head.as_bytes(), bad, tail.as_bytes()].concat());
            }
        }
    }
    tokens
}

/// Each blank, and each that is none, at every place of an index.
fn spaced_indexes() -> Tokens {
    let mut tokens = Vec::new();
    for c in WHITE_SPACE.iter().chain(NO_WHITE_SPACE) {
        let c = c.to_string();
        for form in ["[_7]", "[7_]", "[_7_:_0_]", "[7_:0]", "[7:_0]", "[7:0]_", "[-_7]", "_[7]", "[1_2]", "[_]"] {
            tokens.push(form.replace('_', &c).into_bytes());
        }
    }
    tokens
}

/// Each blank, and each that is none, at both ends of a text and inside; and texts that are not UTF-8.
fn remarks() -> Tokens {
    let mut tokens = texts(REMARKS);
    for c in WHITE_SPACE.iter().chain(NO_WHITE_SPACE) {
        let c = c.to_string();
        for form in ["_", "_a", "a_", "_a_", "a_b", "__a _", " _ ", "_\u{200b}_"] {
            tokens.push(form.replace('_', &c).into_bytes());
        }
    }
    for broken in BROKEN {
        tokens.push(broken.to_vec());
        tokens.push([b" a", *broken, b" b "].concat());
    }
    tokens.push("é ".repeat(150).into_bytes());
    [tokens, at_limits(), texts(FOREIGN)].concat()
}

/// Vectors with a byte that is no value at their start, inside and at their end.
fn vectors() -> Tokens {
    let mut tokens = texts(&["0", "1", "x", "X", "z", "Z", "01xzXZ", " 1", "\n\n1", "\t", "", "-", "U", "1_0", "0b1"]);
    for bad in [&b"2"[..], b"\x00", b"\x80", b"b", b"!", b"/", b"w", b"y", b"[", "é".as_bytes()] {
        tokens.push(bad.to_vec());
        tokens.push([b"01", bad, b"x"].concat());
        tokens.push([b"zz", bad].concat());
    }
    tokens.extend(["01xz".repeat(8), "01xz".repeat(9), "1".repeat(400)].map(String::into_bytes));
    tokens
}

/// A type's name with a letter too few, too many or other.
fn misspelt(names: &[String]) -> Tokens {
    let mut tokens = Vec::new();
    for name in names {
        tokens.push(name.as_bytes()[..name.len() - 1].to_vec());
        tokens.push(format!("{name}s").into_bytes());
        tokens.push(name.to_uppercase().into_bytes());
        tokens.push(format!("{name}é").into_bytes());
    }
    tokens
}

/// The odd tokens of a place.
pub fn odd(slot: Slot) -> Tokens {
    let own = match slot {
        Slot::Lead(_) => return Vec::new(),
        Slot::First => return (0..=255).map(|b| vec![b]).collect(),
        Slot::Remark => return remarks(),
        Slot::Values => return vectors(),
        Slot::Word(_) => texts(WORDS),
        Slot::Scale => texts(SCALES),
        Slot::Unit => texts(UNITS),
        Slot::Close | Slot::VarClose => texts(&["$END", "$en", "$ende", "end", "$end1234", "$end12345", "$ end"]),
        Slot::ScopeType => misspelt(&super::command::scope_types()),
        Slot::VarType => misspelt(&super::command::var_types()),
        Slot::Name => texts(NAMES),
        Slot::Width | Slot::Time => texts(INTEGERS),
        Slot::Id => ids(),
        Slot::Index => [texts(INDEXES), spaced_indexes()].concat(),
        Slot::Real => texts(REALS),
    };
    [own, common()].concat()
}
