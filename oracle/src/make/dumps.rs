//! Dumps as simulators write them (dumps/README.md): whole, in pieces, and damaged.
use super::damage::damaged;
use crate::rng::Rng;

pub const DUMPS: &[&[u8]] = &[
    include_bytes!("../../dumps/arbiter.vcd"),
    include_bytes!("../../dumps/kinds.vcd"),
    include_bytes!("../../dumps/kinds_fst2vcd.vcd"),
    include_bytes!("../../dumps/mesh.vcd"),
    include_bytes!("../../dumps/mesh_fst2vcd.vcd"),
    include_bytes!("../../dumps/fifo.vcd"),
    include_bytes!("../../dumps/fifo_fst2vcd.vcd"),
    include_bytes!("../../dumps/demo_eight.vcd"),
    include_bytes!("../../dumps/demo_named.vcd"),
];

/// The start of a dump, for headers: each whole at first, then damaged.
pub fn from_start(turn: usize, rng: &mut Rng) -> Vec<u8> {
    if let Some(dump) = DUMPS.get(turn) {
        return dump.to_vec();
    }
    let dump = rng.pick(DUMPS);
    let start = &dump[..dump.len().min(100 + rng.below(1000))];
    damaged(start, rng.draw() as usize)
}

/// A damaged dump, mostly without its end.
pub fn cut(rng: &mut Rng) -> Vec<u8> {
    let dump = rng.pick(DUMPS);
    damaged(&dump[..dump.len().min(500 + rng.below(3000))], rng.draw() as usize)
}

/// Each dump whole at first; then mostly a piece of one, damaged or not.
pub fn some(turn: usize, rng: &mut Rng) -> Vec<u8> {
    if let Some(dump) = DUMPS.get(turn) {
        return dump.to_vec();
    }
    let dump = rng.pick(DUMPS);
    if rng.one_in(100) {
        return damaged(dump, rng.draw() as usize);
    }
    let start = rng.below(dump.len());
    // From the start of a line, so that most of the piece is good.
    let start = dump[start..].iter().position(|b| *b == b'\n').map_or(0, |at| start + at + 1);
    let piece = &dump[start..dump.len().min(start + 20 + rng.below(300))];
    if rng.one_in(3) {
        return piece.to_vec();
    }
    damaged(piece, rng.draw() as usize)
}
