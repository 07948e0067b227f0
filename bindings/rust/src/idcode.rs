//! Id codes; their texts are made and read by the proved library.
use crate::raw;
use std::fmt::{self, Display};
use std::str::FromStr;

/// Parse error for invalid ID code.
#[derive(Debug, Clone)]
pub enum InvalidIdCode {
    /// ID is empty
    Empty,
    /// ID contains invalid characters
    InvalidChars,
    /// ID is too long
    TooLong,
}

impl InvalidIdCode {
    pub(crate) fn of(refusal: u64) -> InvalidIdCode {
        match refusal {
            16 => InvalidIdCode::Empty,
            17 => InvalidIdCode::InvalidChars,
            _ => InvalidIdCode::TooLong,
        }
    }
}

impl Display for InvalidIdCode {
    fn fmt(&self, f: &mut fmt::Formatter<'_>) -> fmt::Result {
        f.write_str(match self {
            Self::Empty => "ID cannot be empty",
            Self::InvalidChars => "invalid characters in ID",
            Self::TooLong => "ID too long",
        })
    }
}

impl std::error::Error for InvalidIdCode {}

/// An ID used within the file to refer to a particular variable.
#[derive(Debug, Copy, Clone, Eq, PartialEq, PartialOrd, Ord, Hash)]
pub struct IdCode(pub(crate) u64);

impl IdCode {
    /// An arbitrary IdCode with a short representation.
    pub const FIRST: IdCode = IdCode(0);

    /// Returns the IdCode following this one in an arbitrary sequence.
    pub fn next(&self) -> IdCode {
        IdCode(self.0 + 1)
    }
}

impl FromStr for IdCode {
    type Err = InvalidIdCode;
    fn from_str(s: &str) -> Result<Self, Self::Err> {
        let mut code = 0;
        match raw::id_code(s.as_bytes(), &mut code) {
            raw::OK => Ok(IdCode(code)),
            refusal => Err(InvalidIdCode::of(refusal)),
        }
    }
}

impl From<u32> for IdCode {
    fn from(i: u32) -> IdCode {
        IdCode(i.into())
    }
}

impl From<u64> for IdCode {
    fn from(i: u64) -> IdCode {
        IdCode(i)
    }
}

/// What the crate prints for 2^64 - 1, which has no text that can be read.
const NO_ID: &str = "hPpi,%>22@";

impl Display for IdCode {
    fn fmt(&self, f: &mut fmt::Formatter<'_>) -> fmt::Result {
        let (mut text, mut count) = ([0; raw::ID_TEXT], 0);
        match raw::id_text(self.0, &mut text, &mut count) {
            raw::OK => f.write_str(&String::from_utf8_lossy(&text[..count as usize])),
            _ => f.write_str(NO_ID),
        }
    }
}
