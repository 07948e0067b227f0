//! `counts KIND LEAST`: counts the answers on standard input, and fails where one occurs less than LEAST times.
use oracle::{args, tally};
use std::collections::HashMap;
use std::io::{self, BufRead};
use std::process::exit;

fn main() -> io::Result<()> {
    let usage = "counts KIND LEAST";
    let kind = args::kind(1, usage);
    let least = args::number(2, usage);
    let mut counts: HashMap<String, u64> = HashMap::new();
    for line in io::stdin().lock().lines() {
        if let Some(name) = tally::name(kind, &line?) {
            *counts.entry(name).or_default() += 1;
        }
    }
    let mut few = false;
    for name in tally::names(kind) {
        let count = counts.remove(&name).unwrap_or(0);
        println!("{count} {name}");
        few |= count < least && !tally::is_rare(kind, &name);
    }
    // What is left has no place in the list above.
    for (name, count) in &counts {
        eprintln!("not expected: {count} {name}");
    }
    if few || !counts.is_empty() {
        eprintln!("counts: fewer than {least} of some answer, or an answer that is not expected");
        exit(1);
    }
    Ok(())
}
