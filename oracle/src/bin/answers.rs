//! `answers [KIND]`: reads cases from standard input and prints their canonical answers.
use oracle::{args, stream};
use std::io::{self, BufWriter, Write};

fn main() -> io::Result<()> {
    let kind = args::kind(1, "answers [KIND]");
    let mut input = io::stdin().lock();
    let mut out = BufWriter::new(io::stdout().lock());
    let mut n = 0;
    while let Some(case) = stream::next(&mut input)? {
        out.write_all(kind.answer(n, &case).as_bytes())?;
        n += 1;
    }
    out.flush()
}
