//! `make_dump KIND SEED BYTES`: a dump of one kind on standard output, of some BYTES, the same for the same words. KIND is `vectors`
//! (128 to 2,064 bits), `scalars` (16 channels as a logic analyser writes them) or `header` (at most 4,000 variables, few changes).
#[path = "../../../../oracle/src/rng.rs"]
#[allow(dead_code)]
mod rng;

use rng::Rng;
use std::io::{self, Write};
use vcd::{IdCode, ReferenceIndex, TimescaleUnit, VarType, Writer};

fn main() -> io::Result<()> {
    let args: Vec<String> = std::env::args().collect();
    let rng = Rng::new(args[2].parse().expect("a seed"), 0);
    let bytes: usize = args[3].parse().expect("how many bytes");
    let dump = match args[1].as_str() {
        "vectors" => vectors(rng, bytes)?,
        "scalars" => scalars(rng, bytes)?,
        "header" => header(rng, bytes / 36)?,
        kind => panic!("no such kind: {kind}"),
    };
    io::stdout().write_all(&dump)
}

/// A header of one scope.
fn begun(bytes: usize, vars: impl Iterator<Item = (u32, String)>) -> io::Result<(Vec<u8>, Vec<IdCode>)> {
    let mut out = Vec::with_capacity(bytes + 65_536);
    let mut writer = Writer::new(&mut out);
    writer.timescale(1, TimescaleUnit::NS)?;
    writer.add_module("top")?;
    let ids = vars.map(|(width, name)| writer.add_wire(width, &name)).collect::<io::Result<_>>()?;
    writer.upscope()?;
    writer.enddefinitions()?;
    Ok((out, ids))
}

/// Each time changes four of 24 buses.
fn vectors(mut rng: Rng, bytes: usize) -> io::Result<Vec<u8>> {
    let width = |n: usize| (128 << (n % 5)) + n % 3 * 8;
    let (mut out, ids) = begun(bytes, (0..24).map(|n| (width(n) as u32, format!("bus{n}"))))?;
    let mut time = 0;
    while out.len() < bytes {
        time += 1 + rng.below(5_000);
        writeln!(out, "#{time}")?;
        for _ in 0..4 {
            let n = rng.below(ids.len());
            out.push(b'b');
            bits(&mut rng, width(n), &mut out);
            writeln!(out, " {}", ids[n])?;
        }
    }
    Ok(out)
}

/// A value as simulators write it: 1 first where it is a number, as leading zeros are left out; one in sixteen has x or z in it.
fn bits(rng: &mut Rng, width: usize, out: &mut Vec<u8>) {
    let few = if rng.one_in(16) { b"01xz" } else { b"0101" };
    out.push(b'1');
    for _ in 1..width - rng.below(8) {
        out.push(rng.pick(few));
    }
}

/// Each time changes some of 16 channels, all on one line.
fn scalars(mut rng: Rng, bytes: usize) -> io::Result<Vec<u8>> {
    let (mut out, ids) = begun(bytes, (0..16).map(|n| (1, format!("D{n}"))))?;
    let (mut time, mut level) = (0, 0);
    while out.len() < bytes {
        time += 5 * (1 + rng.below(12));
        write!(out, "#{time}")?;
        let flips = (rng.draw() & rng.draw() & rng.draw()) as usize & 0xffff;
        level ^= flips;
        for (n, id) in ids.iter().enumerate().filter(|(n, _)| flips >> n & 1 == 1) {
            write!(out, " {}{id}", level >> n & 1)?;
        }
        out.push(b'\n');
    }
    Ok(out)
}

/// Variables in 95 scopes, down to 40 levels, 4,095 rows at most; then some changes.
fn header(mut rng: Rng, vars: usize) -> io::Result<Vec<u8>> {
    const SCOPES: usize = 95;
    let vars = vars.min(4_000);
    let mut out = Vec::new();
    let mut writer = Writer::new(&mut out);
    writer.date("a day")?;
    writer.version("make_dump")?;
    writer.timescale(10, TimescaleUnit::PS)?;
    let mut ids = Vec::new();
    let mut depth = 0;
    for s in 0..SCOPES {
        // Leaves some scopes first, but the deepest way is gone down whole.
        for _ in 0..if s <= 40 { 0 } else { rng.below(depth) } {
            writer.upscope()?;
            depth -= 1;
        }
        if depth == 40 {
            writer.upscope()?;
            depth -= 1;
        }
        writer.add_module(&format!("block_{s}"))?;
        depth += 1;
        for n in vars * s / SCOPES..vars * (s + 1) / SCOPES {
            ids.push(var(&mut writer, &mut rng, n)?);
        }
    }
    for _ in 0..depth {
        writer.upscope()?;
    }
    writer.enddefinitions()?;
    for time in 0..50 {
        writer.timestamp(time)?;
        for _ in 0..4 {
            writer.change_scalar(ids[rng.below(40) * vars / 40], rng.one_in(2))?;
        }
    }
    Ok(out)
}

fn var(writer: &mut Writer<&mut Vec<u8>>, rng: &mut Rng, n: usize) -> io::Result<IdCode> {
    let part = rng.pick(&["valid", "ready", "address", "write_data", "state", "count"]);
    let (kind, width) = (rng.pick(&[VarType::Wire, VarType::Reg]), rng.pick(&[1, 1, 1, 4, 8, 32]));
    let index = (width > 1).then_some(ReferenceIndex::Range(width as i32 - 1, 0));
    writer.add_var(kind, width, &format!("{part}_{n}"), index)
}
