//! Counting answers: how often each command and each refusal occurs, and which of them must.
use crate::kind::Kind;
use crate::script::NAMES;

const COMMANDS: &[&str] = &[
    "comment", "date", "version", "timescale", "scope", "upscope", "var", "enddefinitions", "time", "scalar", "vector",
    "real", "string", "begin", "end", "done",
];

/// What a line of an answer counts as, if as anything.
pub fn name(kind: Kind, line: &str) -> Option<String> {
    match kind {
        Kind::List => listed(line),
        Kind::Reformat => written(line),
        _ => answered(kind, line),
    }
}

fn answered(kind: Kind, line: &str) -> Option<String> {
    let mut words = line.split(' ');
    let (first, second, third) = (words.next()?, words.next()?, words.next());
    match (kind, first, second) {
        (_, "case", _) => None,
        (Kind::Header, _, "-") => None,
        (Kind::Write, _, "refused") => Some(format!("{first} refused {}", third?)),
        (Kind::Write, _, _) => Some(format!("{first} {second}")),
        (_, "refused", _) => Some(format!("refused {second}")),
        _ => Some(first.to_string()),
    }
}

/// The line with which the programs end, if it is that.
fn ended(words: &[&str]) -> Option<String> {
    match words {
        ["refused", number, "at", _] => Some(format!("refused {number}")),
        ["input", "too", "long"] => Some(TOO_LONG.to_string()),
        _ => None,
    }
}

fn listed(line: &str) -> Option<String> {
    let words: Vec<&str> = line.split(' ').collect();
    let own = match words[..] {
        ["case", _] => None,
        [_, "full"] => Some("full"),
        [_, "-", _, _] => Some("change without a time"),
        [_, _, _, _] => Some("change"),
        _ => None,
    };
    ended(&words).or(own.map(str::to_string))
}

/// Lines inside a text, and its `$end`, count as nothing unless they look like a command.
fn written(line: &str) -> Option<String> {
    let words: Vec<&str> = line.split(' ').collect();
    let own = match line.as_bytes().first()? {
        b'$' => COMMANDS.iter().find(|command| **command == &words[0][1..]).copied().filter(|c| *c != "end"),
        b'#' => Some("time"),
        b'0' | b'1' | b'x' | b'z' => Some("scalar"),
        b'b' => Some("vector"),
        b'r' if words.len() == 2 => Some("real"),
        b's' => Some("string"),
        _ => None,
    };
    let begin = words[0].starts_with("$dump").then_some("begin");
    ended(&words).or(own.or(begin).map(str::to_string))
}

const TOO_LONG: &str = "input too long";

/// What only a long dump shows, so that the programs' samples have little of it.
pub fn is_rare(kind: Kind, name: &str) -> bool {
    let long = [TOO_LONG, "refused 19", "refused 20", "refused 21"];
    matches!(kind, Kind::List | Kind::Reformat) && long.contains(&name)
}

/// All that can occur in answers of a kind. 16 needs an id text converted directly, 8 a header.
pub fn names(kind: Kind) -> Vec<String> {
    let refused = |n: &u8| format!("refused {n}");
    let read = [1, 2, 3, 4, 5, 6, 7, 9, 10, 11, 12, 13, 14, 15, 17, 18];
    match kind {
        Kind::Read => COMMANDS.iter().map(|c| c.to_string()).chain(read.iter().map(refused)).collect(),
        Kind::Header => ["comment", "date", "version", "timescale", "scope", "var", "header"]
            .iter()
            .map(|c| c.to_string())
            .chain(read.iter().chain(&[8, 19, 20]).map(refused))
            .collect(),
        Kind::Write => NAMES.iter().flat_map(|call| outcomes(call)).collect(),
        Kind::List => ["change", "change without a time", "full", TOO_LONG]
            .iter()
            .map(|c| c.to_string())
            .chain(read.iter().chain(&[8, 19, 20]).map(refused))
            .collect(),
        Kind::Reformat => COMMANDS
            .iter()
            .filter(|c| !["end", "done"].contains(c))
            .chain(&[TOO_LONG])
            .map(|c| c.to_string())
            .chain(read.iter().chain(&[8, 19, 20, 21, 22]).map(refused))
            .collect(),
    }
}

/// The outcomes of a writer's call: 25 needs a text, and 22 something on its list.
fn outcomes(call: &str) -> Vec<String> {
    let no_text = ["timescale", "upscope", "enddefinitions", "timestamp", "change_scalar", "begin", "end"];
    let mut outcomes = vec![format!("{call} ok"), format!("{call} refused 21")];
    if !["timestamp", "begin"].contains(&call) {
        outcomes.push(format!("{call} refused 22"));
    }
    if !no_text.contains(&call) {
        outcomes.push(format!("{call} refused 25"));
    }
    if call == "header" {
        outcomes.push(format!("{call} refused 23"));
    }
    outcomes
}
