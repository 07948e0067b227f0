//! The programs' arguments; a wrong one ends the program with its usage.
use crate::kind::Kind;
use std::process::exit;

fn refuse(usage: &str) -> ! {
    eprintln!("usage: {usage}");
    exit(2);
}

pub fn text(at: usize, usage: &str) -> String {
    std::env::args().nth(at).unwrap_or_else(|| refuse(usage))
}

pub fn number(at: usize, usage: &str) -> u64 {
    text(at, usage).parse().unwrap_or_else(|_| refuse(usage))
}

/// The kind of cases, reading if none is named.
pub fn kind(at: usize, usage: &str) -> Kind {
    let name = std::env::args().nth(at).unwrap_or("read".to_string());
    Kind::named(&name).unwrap_or_else(|| refuse(usage))
}
