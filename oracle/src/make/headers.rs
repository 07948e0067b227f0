//! Headers: trees of scopes with a command out of place, deep ones, and more rows than are lent.
use super::command::*;
use super::damage::damaged;
use crate::rng::Rng;

/// A header case: how many rows are lent, often round what the header needs, and the header.
pub fn with_rows(header: &[u8], rng: &mut Rng) -> Vec<u8> {
    let words: [&[u8]; 3] = [b"$scope", b"$var", b"$comment"];
    let needs: usize = words.iter().map(|word| header.windows(word.len()).filter(|w| w == word).count()).sum();
    let near = rng.below(3);
    let lent = match rng.below(4) {
        _ if needs > 4000 => rng.pick(&[4095, 4096, 4097, 5000]),
        0 => (needs + near).saturating_sub(1),
        1 => rng.below(needs + 2),
        _ => rng.pick(&[0, 64, 65, 256, 256, 256, 4096, 5000]),
    };
    [format!("{lent}\n").as_bytes(), header].concat()
}

/// Commands in the order of a header, most of them where they belong.
pub fn tree(rng: &mut Rng) -> Vec<u8> {
    if rng.one_in(60) {
        return deep(rng);
    }
    if rng.one_in(1000) {
        return full(rng);
    }
    let mut out = Vec::new();
    let mut depth = 0;
    for _ in 0..rng.below(14) {
        match rng.below(12) {
            0..=2 => {
                put(&mut out, SCOPE, None, rng);
                depth += 1;
            }
            3 | 4 if depth > 0 => {
                put(&mut out, UPSCOPE, None, rng);
                depth -= 1;
            }
            5 => put(&mut out, COMMENT, None, rng),
            6 | 7 => put(&mut out, INDEXED, None, rng),
            8 if depth == 0 => put(&mut out, rng.pick(&[DATE, VERSION, TIMESCALE]), None, rng),
            9 if rng.one_in(4) => put(&mut out, rng.pick(COMMANDS), None, rng),
            _ => put(&mut out, VAR, None, rng),
        }
    }
    close(&mut out, depth, rng);
    out
}

/// Closes the open scopes and the header, nearly always.
fn close(out: &mut Vec<u8>, depth: usize, rng: &mut Rng) {
    let open = if rng.one_in(8) { depth / 2 } else { depth };
    for _ in 0..open {
        put(out, UPSCOPE, None, rng);
    }
    if !rng.one_in(8) {
        put(out, ENDDEFINITIONS, None, rng);
    }
    put_some(out, 2, rng);
}

/// From 60 to 66 open scopes, and a few commands there.
fn deep(rng: &mut Rng) -> Vec<u8> {
    let depth = 60 + rng.below(7);
    let mut out = b"$scope fork f $end\n".repeat(depth);
    for _ in 0..rng.below(4) {
        match rng.below(6) {
            0 => out.extend_from_slice(b"$scope modul m $end\n"),
            1 => put(&mut out, rng.pick(COMMANDS), None, rng),
            2 => put(&mut out, UPSCOPE, None, rng),
            3 => put(&mut out, SCOPE, None, rng),
            _ => put(&mut out, rng.pick(&[VAR, COMMENT]), None, rng),
        }
    }
    close(&mut out, depth, rng);
    out
}

/// Round 4,096 rows.
fn full(rng: &mut Rng) -> Vec<u8> {
    let mut out = b"$comment $end".repeat(4095 + rng.below(2));
    out.push(b'\n');
    put(&mut out, rng.pick(&[VAR, COMMENT, SCOPE, DATE]), None, rng);
    close(&mut out, 0, rng);
    out
}

/// A command with an odd token, among good ones of a header.
pub fn with_odd(command: &[Slot], odd: (usize, &[u8]), rng: &mut Rng) -> Vec<u8> {
    let mut out = Vec::new();
    for _ in 0..rng.below(4) {
        put(&mut out, rng.pick(&[COMMENT, DATE, VERSION, TIMESCALE, VAR, INDEXED]), None, rng);
    }
    let depth = rng.below(3);
    for _ in 0..depth {
        put(&mut out, SCOPE, None, rng);
    }
    put(&mut out, command, Some(odd), rng);
    close(&mut out, depth, rng);
    out
}

/// A damaged tree.
pub fn damaged_tree(rng: &mut Rng) -> Vec<u8> {
    let tree = tree(rng);
    damaged(&tree, rng.draw() as usize)
}
