//! The kinds of cases, and the answer to a case of each.
use crate::{header, list, read, reformat, write};
use std::fmt::Write;

#[derive(Clone, Copy, PartialEq)]
pub enum Kind {
    Read,
    Header,
    Write,
    List,
    Reformat,
}

impl Kind {
    pub fn named(name: &str) -> Option<Kind> {
        match name {
            "read" => Some(Kind::Read),
            "header" => Some(Kind::Header),
            "write" => Some(Kind::Write),
            "list" => Some(Kind::List),
            "reformat" => Some(Kind::Reformat),
            _ => None,
        }
    }

    /// The answer to case `n`.
    pub fn answer(self, n: usize, case: &[u8]) -> String {
        let mut out = String::new();
        let _ = writeln!(out, "case {n}");
        match self {
            Kind::Read => read::answer(&mut out, case),
            Kind::Header => header::answer(&mut out, case),
            Kind::Write => write::answer(&mut out, case),
            Kind::List => list::answer(&mut out, case),
            Kind::Reformat => reformat::answer(&mut out, case),
        }
        out
    }
}
