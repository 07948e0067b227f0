//! Refusals as errors. Reading and writing answer [`io::Error`], as the crate does; inside stands a [`ParseError`] or a [`Refusal`].
use crate::{
    InvalidIdCode, InvalidReferenceIndex, InvalidScopeType, InvalidTimescaleUnit, InvalidValue, InvalidVarType,
};
use std::fmt::{self, Display};
use std::io;
use std::num::{ParseFloatError, ParseIntError};

/// The names of the refusals 1 to 25.
const NAMES: [&str; 25] = [
    "UnexpectedEof", "InvalidUtf8", "UnexpectedCharacter", "TokenTooLong", "ExpectedEndCommand", "UnmatchedEnd",
    "UnknownCommand", "UnexpectedHeaderCommand", "ParseIntError", "ParseFloatError", "InvalidTimescaleUnit",
    "InvalidScopeType", "InvalidVarType", "InvalidReferenceIndex", "InvalidValueChar", "IdEmpty", "IdInvalidChars",
    "IdTooLong", "TooDeep", "TableFull", "NoRoom", "NotWritable", "BadTable", "ListFull", "BadPlace",
];

/// A refusal of the proved library. A [`crate::Writer`] answers it inside an [`io::Error`] of kind `InvalidInput`.
#[derive(Debug, Copy, Clone, PartialEq, Eq, Hash)]
pub struct Refusal(u64);

impl Refusal {
    /// The refusal of a number from 1 to 25.
    pub fn from_number(number: u64) -> Option<Refusal> {
        (1..=25).contains(&number).then_some(Refusal(number))
    }

    /// The refusal inside an error of reading or writing.
    pub fn of(error: &io::Error) -> Option<Refusal> {
        let inner = error.get_ref()?;
        inner.downcast_ref::<ParseError>().map(ParseError::refusal).or_else(|| inner.downcast_ref().copied())
    }

    /// Its number, 1 to 25.
    pub fn number(self) -> u64 {
        self.0
    }

    /// Its name.
    pub fn name(self) -> &'static str {
        NAMES[self.0 as usize - 1]
    }
}

/// No other number is ever answered; one would mean that the archive is another library.
impl From<u64> for Refusal {
    fn from(number: u64) -> Refusal {
        Refusal::from_number(number).unwrap_or(Refusal(crate::raw::BAD_PLACE))
    }
}

impl Display for Refusal {
    fn fmt(&self, f: &mut fmt::Formatter<'_>) -> fmt::Result {
        write!(f, "refused {} ({})", self.number(), self.name())
    }
}

impl std::error::Error for Refusal {}

impl From<Refusal> for io::Error {
    fn from(e: Refusal) -> io::Error {
        io::Error::new(io::ErrorKind::InvalidInput, e)
    }
}

/// Error from parsing VCD
#[derive(Debug, Clone)]
pub struct ParseError {
    line: u64,
    kind: ParseErrorKind,
    refusal: Refusal,
}

impl ParseError {
    /// A refusal at a line; `int` gives std's own error for a number that was none.
    pub(crate) fn new(refusal: Refusal, line: u64, int: impl FnOnce() -> ParseIntError) -> ParseError {
        ParseError { line, kind: ParseErrorKind::of(refusal.number(), int), refusal }
    }

    /// Returns the 1-indexed line number in the VCD file where the error occurred.
    pub fn line(&self) -> u64 {
        self.line
    }

    /// Returns an enum value identifying the kind of error.
    pub fn kind(&self) -> &ParseErrorKind {
        &self.kind
    }

    /// The library's refusal.
    pub fn refusal(&self) -> Refusal {
        self.refusal
    }
}

/// Errors that can be encountered while parsing. The last four are not the crate's: it has the first of them as an [`io::ErrorKind`]
/// alone, and the others are limits of the proved library.
#[derive(Debug, Clone)]
#[non_exhaustive]
#[allow(missing_docs)]
pub enum ParseErrorKind {
    InvalidUtf8,
    UnexpectedCharacter,
    TokenTooLong,
    ExpectedEndCommand,
    UnmatchedEnd,
    UnknownCommand,
    UnexpectedHeaderCommand,
    ParseIntError(ParseIntError),
    ParseFloatError(ParseFloatError),
    InvalidTimescaleUnit(InvalidTimescaleUnit),
    InvalidScopeType(InvalidScopeType),
    InvalidVarType(InvalidVarType),
    InvalidReferenceIndex(InvalidReferenceIndex),
    InvalidValueChar(InvalidValue),
    InvalidIdCode(InvalidIdCode),
    UnexpectedEof,
    TooDeep,
    TableFull,
    BadPlace,
}

impl ParseErrorKind {
    fn of(number: u64, int: impl FnOnce() -> ParseIntError) -> ParseErrorKind {
        use ParseErrorKind::*;
        match number {
            1 => UnexpectedEof,
            2 => InvalidUtf8,
            3 => UnexpectedCharacter,
            4 => TokenTooLong,
            5 => ExpectedEndCommand,
            6 => UnmatchedEnd,
            7 => UnknownCommand,
            8 => UnexpectedHeaderCommand,
            9 => ParseIntError(int()),
            10 => ParseFloatError("x".parse::<f64>().expect_err("no number")),
            11 => InvalidTimescaleUnit(crate::InvalidTimescaleUnit),
            12 => InvalidScopeType(crate::InvalidScopeType),
            13 => InvalidVarType(crate::InvalidVarType),
            14 => InvalidReferenceIndex(crate::InvalidReferenceIndex),
            15 => InvalidValueChar(InvalidValue),
            16..=18 => InvalidIdCode(crate::InvalidIdCode::of(number)),
            19 => TooDeep,
            20 => TableFull,
            _ => BadPlace,
        }
    }
}

impl std::error::Error for ParseError {}

impl Display for ParseError {
    fn fmt(&self, f: &mut fmt::Formatter<'_>) -> fmt::Result {
        write!(f, "{} at line {}", self.kind, self.line)
    }
}

impl Display for ParseErrorKind {
    fn fmt(&self, f: &mut fmt::Formatter<'_>) -> fmt::Result {
        match self {
            ParseErrorKind::InvalidUtf8 => f.write_str("invalid UTF-8"),
            ParseErrorKind::UnexpectedCharacter => f.write_str("unexpected character at start of command"),
            ParseErrorKind::TokenTooLong => f.write_str("token too long"),
            ParseErrorKind::ExpectedEndCommand => f.write_str("expected `$end`"),
            ParseErrorKind::UnmatchedEnd => f.write_str("unmatched `$end`"),
            ParseErrorKind::UnknownCommand => f.write_str("unknown command"),
            ParseErrorKind::UnexpectedHeaderCommand => f.write_str("unexpected command in header"),
            ParseErrorKind::ParseIntError(e) => e.fmt(f),
            ParseErrorKind::ParseFloatError(e) => e.fmt(f),
            ParseErrorKind::InvalidTimescaleUnit(e) => e.fmt(f),
            ParseErrorKind::InvalidScopeType(e) => e.fmt(f),
            ParseErrorKind::InvalidVarType(e) => e.fmt(f),
            ParseErrorKind::InvalidReferenceIndex(e) => e.fmt(f),
            ParseErrorKind::InvalidValueChar(e) => e.fmt(f),
            ParseErrorKind::InvalidIdCode(e) => e.fmt(f),
            ParseErrorKind::UnexpectedEof => f.write_str("unexpected end of VCD file"),
            ParseErrorKind::TooDeep => f.write_str("more than 64 scopes open"),
            ParseErrorKind::TableFull => f.write_str("more than 4,096 items in header"),
            ParseErrorKind::BadPlace => f.write_str("input too long or changed while it was read"),
        }
    }
}

impl From<ParseError> for io::Error {
    fn from(e: ParseError) -> io::Error {
        let kind = match e.kind {
            ParseErrorKind::UnexpectedEof => io::ErrorKind::UnexpectedEof,
            _ => io::ErrorKind::InvalidData,
        };
        io::Error::new(kind, e)
    }
}
