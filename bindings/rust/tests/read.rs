//! Reading held to the crate's, over all recorded dumps: every command, every error with its kind and line, headers, and the two mixed.
mod common;
use common::{crate_error, dumps, foreign_timescale, our_error, parse_error};

/// Errors after which a dump is left.
const ERRORS: usize = 8;

/// What reading answers, as text that both crates give alike: both derive `Debug` over the same names.
type Steps = Vec<String>;

fn ours(dump: &[u8], lines: bool) -> Steps {
    let mut parser = vcd_proved::Parser::new(dump);
    let (mut steps, mut errors) = (Vec::new(), 0);
    while errors < ERRORS {
        let step = match parser.next() {
            None => break,
            Some(Ok(command)) => format!("{command:?}"),
            Some(Err(e)) => {
                errors += 1;
                assert_eq!(parse_error(&e).line(), parser.line());
                our_error(&e)
            }
        };
        steps.push(if lines { format!("{step} {}", parser.line()) } else { step });
    }
    steps.push(format!("line {}", parser.line()));
    steps
}

fn theirs(dump: &[u8], lines: bool) -> Steps {
    let mut parser = vcd::Parser::new(dump);
    let (mut steps, mut errors) = (Vec::new(), 0);
    while errors < ERRORS {
        let step = match parser.next() {
            None => break,
            Some(Ok(command)) => format!("{command:?}"),
            Some(Err(e)) => {
                errors += 1;
                crate_error(&e)
            }
        };
        steps.push(if lines { format!("{step} {}", parser.line()) } else { step });
    }
    steps.push(format!("line {}", parser.line()));
    steps
}

/// Compares up to the first foreign timescale; answers whether there was one.
fn compare(dump: &[u8], lines: bool) -> bool {
    let (ours, theirs) = (ours(dump, lines), theirs(dump, lines));
    for (a, b) in ours.iter().zip(&theirs) {
        if a != b && foreign_timescale(dump, a, b.trim_end_matches(|c: char| c == ' ' || c.is_ascii_digit())) {
            return true;
        }
        assert_eq!(a, b, "in {:?}", String::from_utf8_lossy(dump));
    }
    assert_eq!(ours.len(), theirs.len(), "in {:?}", String::from_utf8_lossy(dump));
    false
}

#[test]
fn commands_errors_and_lines_are_the_crates() {
    let dumps = dumps();
    let foreign = dumps.iter().filter(|dump| compare(dump, true)).count();
    assert_eq!(foreign, dumps.iter().filter(|dump| compare(dump, false)).count());
    println!("{} dumps read, {foreign} of them up to a foreign timescale", dumps.len());
    assert!(foreign < dumps.len() / 50);
}

/// Many commands, so that batches are filled and left behind in every way.
#[test]
fn long_dumps_are_read_through() {
    let mut dump = b"$enddefinitions $end\n".to_vec();
    for i in 0..2000 {
        dump.extend(format!("#{i}\n{}! b10x \"\nr{i}.5 #\nsab{i} $\n", i % 2).bytes());
        if i % 97 == 0 {
            dump.extend(b"q\n#x\n");
        }
    }
    let mut parser = vcd_proved::Parser::new(&dump);
    let mut theirs = vcd::Parser::new(&dump[..]);
    for n in 0.. {
        match (parser.next_command(), theirs.next()) {
            (Some(Ok(a)), Some(Ok(b))) => assert_eq!(format!("{a:?}"), format!("{b:?}")),
            (Some(Err(a)), Some(Err(b))) => assert_eq!(our_error(&a), crate_error(&b)),
            (a, b) => {
                assert!(a.is_none() && b.is_none());
                assert!(n > 10_000);
                break;
            }
        }
        if n % 101 == 0 {
            assert_eq!(parser.line(), theirs.line());
        }
    }
    assert_eq!(parser.line(), theirs.line());
}

/// A header after `before` commands, then `after` commands behind it.
fn header_ours(dump: &[u8], before: usize, after: usize) -> Steps {
    let mut parser = vcd_proved::Parser::new(dump);
    let mut steps: Steps =
        parser.by_ref().take(before).map(|r| format!("{:?}", r.map_err(|e| our_error(&e)))).collect();
    let header = parser.parse_header();
    steps.push(format!("{:?} {}", header.map_err(|e| our_error(&e)), parser.line()));
    steps.extend(parser.by_ref().take(after).map(|r| format!("{:?}", r.map_err(|e| our_error(&e)))));
    steps.push(format!("line {}", parser.line()));
    steps
}

fn header_theirs(dump: &[u8], before: usize, after: usize) -> Steps {
    let mut parser = vcd::Parser::new(dump);
    let mut steps: Steps =
        parser.by_ref().take(before).map(|r| format!("{:?}", r.map_err(|e| crate_error(&e)))).collect();
    let header = parser.parse_header();
    steps.push(format!("{:?} {}", header.map_err(|e| crate_error(&e)), parser.line()));
    steps.extend(parser.by_ref().take(after).map(|r| format!("{:?}", r.map_err(|e| crate_error(&e)))));
    steps.push(format!("line {}", parser.line()));
    steps
}

/// docs/DIFFERENCES.md: 19 and 20 are not the crate's.
fn limited(dump: &[u8], ours: &str) -> bool {
    let count = |word: &str| String::from_utf8_lossy(dump).matches(word).count();
    (ours.contains(" TooDeep at") && count("$scope") > 64)
        || (ours.contains(" TableFull at") && count("$scope") + count("$var") + count("$comment") > 4096)
}

fn compare_header(dump: &[u8], before: usize) -> bool {
    let (ours, theirs) = (header_ours(dump, before, 20), header_theirs(dump, before, 20));
    for (a, b) in ours.iter().zip(&theirs) {
        let end = b
            .trim_end_matches(|c: char| c == ' ' || c.is_ascii_digit())
            .trim_start_matches("Err(\"")
            .trim_end_matches("\")");
        if a != b && (limited(dump, a) || foreign_timescale(dump, a, end)) {
            return true;
        }
        assert_eq!(a, b, "after {before} commands in {:?}", String::from_utf8_lossy(dump));
    }
    assert_eq!(ours.len(), theirs.len());
    false
}

#[test]
fn headers_and_what_follows_are_the_crates() {
    let dumps = dumps();
    for before in [0, 1, 2, 17] {
        let left = dumps.iter().filter(|dump| compare_header(dump, before)).count();
        println!("{} headers read after {before} commands, {left} of them up to a known difference", dumps.len());
        assert!(left < dumps.len() / 20);
    }
}

#[test]
fn limits_of_headers() {
    for (items, scopes) in [(4096, 0), (4097, 0), (64, 64), (65, 65)] {
        let mut dump = "$scope fork f $end ".repeat(scopes) + &"$comment $end ".repeat(items - scopes);
        dump += &("$upscope $end ".repeat(scopes) + "$enddefinitions $end ");
        let header = vcd_proved::Parser::new(&dump).parse_header();
        let theirs = vcd::Parser::new(dump.as_bytes()).parse_header().unwrap();
        match (items, scopes) {
            (4097, _) => assert_eq!(vcd_proved::Refusal::of(&header.unwrap_err()).unwrap().number(), 20),
            (_, 65) => assert_eq!(vcd_proved::Refusal::of(&header.unwrap_err()).unwrap().number(), 19),
            _ => assert_eq!(format!("{:?}", header.unwrap()), format!("{theirs:?}")),
        }
    }
}

/// An input that is not the same at each look: reading ends by 25, and nothing panics.
struct Shrinking(std::cell::Cell<usize>);

impl AsRef<[u8]> for Shrinking {
    fn as_ref(&self) -> &[u8] {
        let left = self.0.get();
        self.0.set(left.saturating_sub(7));
        &b"$comment caf\xc3\xa9 $end $version v $end sabcd ! r1.5 ! b10 ! #5 "[..left]
    }
}

#[test]
fn an_input_that_changes_is_refused() {
    let mut parser = vcd_proved::Parser::new(Shrinking(std::cell::Cell::new(59)));
    let numbers: Vec<u64> =
        parser.by_ref().filter_map(|r| r.err()).map(|e| parse_error(&e).refusal().number()).take(100).collect();
    assert!(numbers.len() < 100);
    assert_eq!(numbers.last(), Some(&25));
    assert!(parser.next().is_none());
    let _ = parser.parse_header();
    let _ = parser.line();
}
