//! `cases SEED COUNT [KIND]`: writes cases to standard output.
use oracle::{args, make::Maker, stream};
use std::io::{self, BufWriter, Write};

fn main() -> io::Result<()> {
    let usage = "cases SEED COUNT [KIND]";
    let seed = args::number(1, usage);
    let count = args::number(2, usage);
    let maker = Maker::new(args::kind(3, usage), seed);
    let mut out = BufWriter::new(io::stdout().lock());
    for n in 0..count as usize {
        stream::put(&mut out, &maker.case(n))?;
    }
    out.flush()
}
