//! The case format: `LENGTH LF`, LENGTH bytes, `LF`, one case after another.
use std::io::{self, BufRead, Write};

pub fn put(out: &mut impl Write, case: &[u8]) -> io::Result<()> {
    writeln!(out, "{}", case.len())?;
    out.write_all(case)?;
    out.write_all(b"\n")
}

/// The next case, or none at the end of the stream.
pub fn next(input: &mut impl BufRead) -> io::Result<Option<Vec<u8>>> {
    let mut length = String::new();
    if input.read_line(&mut length)? == 0 {
        return Ok(None);
    }
    let bad = |_| io::Error::new(io::ErrorKind::InvalidData, "a case must begin with its length");
    let length: usize = length.trim_end().parse().map_err(bad)?;
    let mut case = vec![0; length + 1];
    input.read_exact(&mut case)?;
    case.pop();
    Ok(Some(case))
}

/// All cases of a stream.
pub fn all(input: &mut impl BufRead) -> io::Result<Vec<Vec<u8>>> {
    let mut cases = Vec::new();
    while let Some(case) = next(input)? {
        cases.push(case);
    }
    Ok(cases)
}
