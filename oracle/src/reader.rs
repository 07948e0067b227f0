//! The crate's parser, one command at a time, with the page's numbers and its rule for a timescale.
use std::io::{self, Cursor};
use std::ops::Range;
use vcd::{Command, InvalidIdCode, ParseError, ParseErrorKind, Parser, SimulationCommand};

pub enum Step {
    Command(Command),
    Done,
    Refused(u8),
}

pub struct Reader {
    parser: Parser<Cursor<Vec<u8>>>,
    /// Whether the last refusal was the page's and not the crate's.
    pub by_page: bool,
}

impl Reader {
    pub fn new(input: &[u8]) -> Reader {
        Reader { parser: Parser::new(Cursor::new(input.to_vec())), by_page: false }
    }

    pub fn step(&mut self) -> Step {
        self.mask_foreign_timescale();
        let step = self.parser.next();
        let line = self.line();
        match step {
            None => Step::Done,
            Some(Ok(command)) => Step::Command(command),
            Some(Err(e)) if self.by_page => {
                assert_eq!(number(&e, line), MASKED);
                Step::Refused(11)
            }
            Some(Err(e)) => Step::Refused(number(&e, line)),
        }
    }

    pub fn line(&self) -> u64 {
        self.parser.line()
    }

    /// The bytes consumed so far.
    pub fn place(&mut self) -> usize {
        self.parser.reader().position() as usize
    }

    /// The input as the crate was given it.
    pub fn given(&mut self) -> &[u8] {
        self.parser.reader().get_ref()
    }

    // page: a timescale's first token with a non-ASCII character is 11 at once. The crate refuses a
    // token of `x` at that very place, with 9, so it is given that, and counts lines and bytes itself.
    fn mask_foreign_timescale(&mut self) {
        let from = self.place();
        let token = foreign_timescale(self.given(), from);
        self.by_page = token.is_some();
        if let Some(token) = token {
            self.parser.reader().get_mut()[token].fill(b'x');
        }
    }

    /// Whether a newline is pending, and the open simulation command: both private to the crate,
    /// but shown by how it reads one more `$end`.
    pub fn left_over(mut self) -> (bool, Option<SimulationCommand>) {
        let line = self.line();
        *self.parser.reader() = Cursor::new(b"$end ".to_vec());
        let open = match self.parser.next() {
            Some(Ok(Command::End(c))) => Some(c),
            _ => None,
        };
        (self.line() > line, open)
    }
}

/// The crate's refusal of a masked timescale.
pub const MASKED: u8 = 9;

fn is_blank(b: u8) -> bool {
    matches!(b, b' ' | b'\n' | b'\r' | b'\t')
}

/// The first place from `at` on that holds no blank.
pub fn skip_blanks(input: &[u8], at: usize) -> usize {
    let blanks = input[at..].iter().take_while(|b| is_blank(**b)).count();
    at + blanks
}

/// The next token, where a blank ends it.
pub fn token(input: &[u8], at: usize) -> Option<Range<usize>> {
    let start = skip_blanks(input, at);
    let length = input[start..].iter().position(|b| is_blank(*b))?;
    Some(start..start + length)
}

fn foreign_timescale(input: &[u8], at: usize) -> Option<Range<usize>> {
    let start = skip_blanks(input, at);
    if input.get(start) != Some(&b'$') {
        return None;
    }
    let word = token(input, start + 1)?;
    if &input[word.clone()] != b"timescale" {
        return None;
    }
    let first = token(input, word.end)?;
    let text = std::str::from_utf8(&input[first.clone()]).ok()?;
    (first.len() <= 8 && !text.is_ascii()).then_some(first)
}

/// The page's number of a refusal.
pub fn number(error: &io::Error, line: u64) -> u8 {
    if error.kind() == io::ErrorKind::UnexpectedEof {
        return 1;
    }
    let inner = error.get_ref().and_then(|e| e.downcast_ref::<ParseError>());
    let inner = inner.expect("only the crate's own errors in memory");
    assert_eq!(inner.line(), line);
    match inner.kind() {
        ParseErrorKind::InvalidUtf8 => 2,
        ParseErrorKind::UnexpectedCharacter => 3,
        ParseErrorKind::TokenTooLong => 4,
        ParseErrorKind::ExpectedEndCommand => 5,
        ParseErrorKind::UnmatchedEnd => 6,
        ParseErrorKind::UnknownCommand => 7,
        ParseErrorKind::UnexpectedHeaderCommand => 8,
        ParseErrorKind::ParseIntError(_) => 9,
        ParseErrorKind::ParseFloatError(_) => 10,
        ParseErrorKind::InvalidTimescaleUnit(_) => 11,
        ParseErrorKind::InvalidScopeType(_) => 12,
        ParseErrorKind::InvalidVarType(_) => 13,
        ParseErrorKind::InvalidReferenceIndex(_) => 14,
        ParseErrorKind::InvalidValueChar(_) => 15,
        ParseErrorKind::InvalidIdCode(InvalidIdCode::Empty) => 16,
        ParseErrorKind::InvalidIdCode(InvalidIdCode::InvalidChars) => 17,
        ParseErrorKind::InvalidIdCode(InvalidIdCode::TooLong) => 18,
        other => panic!("an error with no number: {other:?}"),
    }
}
