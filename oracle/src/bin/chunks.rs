//! `chunks FOLDER`: parts the cases on standard input into files of at most 128 KiB, whole cases each.
use oracle::{args, stream};
use std::fs::File;
use std::io::{self, BufWriter, Write};
use std::path::Path;

const MOST: usize = 1 << 17;

fn main() -> io::Result<()> {
    let folder = args::text(1, "chunks FOLDER");
    let mut input = io::stdin().lock();
    let mut chunk = Vec::new();
    let mut number = 0;
    while let Some(case) = stream::next(&mut input)? {
        let mut next = Vec::new();
        stream::put(&mut next, &case)?;
        if chunk.len() + next.len() > MOST {
            save(&folder, number, &chunk)?;
            number += 1;
            chunk.clear();
        }
        chunk.extend(next);
    }
    save(&folder, number, &chunk)
}

fn save(folder: &str, number: usize, chunk: &[u8]) -> io::Result<()> {
    let name = Path::new(folder).join(format!("{number:06}.cases"));
    let mut file = BufWriter::new(File::create(name)?);
    file.write_all(chunk)?;
    file.flush()
}
