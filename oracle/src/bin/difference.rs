//! `difference CASES EXPECTED GOT`: prints how many cases there are and how many differ, then the first that does.
use oracle::{args, compare, form, stream};
use std::fs;
use std::io;

fn main() -> io::Result<()> {
    let usage = "difference CASES EXPECTED GOT";
    let cases = stream::all(&mut &fs::read(args::text(1, usage))?[..])?;
    let expected = fs::read_to_string(args::text(2, usage))?;
    let got = String::from_utf8_lossy(&fs::read(args::text(3, usage))?).into_owned();
    let found = compare::differences(&expected, &got);
    println!("{} {}", cases.len(), found.len());
    if let Some(first) = found.first() {
        let mut input = String::from("input");
        form::text(&mut input, cases.get(first.case).map_or(b"", |case| case));
        println!("{input}\nexpected:\n{}got:\n{}", first.expected, first.got);
    }
    Ok(())
}
