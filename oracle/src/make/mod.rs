//! Making cases: each depends on its kind, the seed and its number alone.
mod command;
mod damage;
mod dumps;
mod fixed;
mod headers;
mod odd;
mod scripts;
mod walk;
mod whole;

use crate::kind::Kind;
use crate::rng::Rng;
use command::{Slot, COMMANDS};
use scripts::Texts;

/// A command, one of its places, and an odd token for it.
type Odd = (&'static [Slot], usize, Vec<u8>);

pub struct Maker {
    kind: Kind,
    seed: u64,
    odds: Vec<Odd>,
    texts: Texts,
    fixed: Vec<Vec<u8>>,
    recorded: usize,
}

/// The order of the sorts of cases, over and over: w exhaustive, o an odd token, d damaged copies,
/// s simulators' dumps, t header trees or whole dumps, c random calls, p parts of a source.
fn pattern(kind: Kind) -> &'static [u8] {
    match kind {
        Kind::Read => b"wowdwowswdwowowdwswo",
        Kind::Header => b"wtotdtwsotdtwtosdtwt",
        Kind::Write => b"wcccpcwcccpcwccccpcc",
        Kind::List | Kind::Reformat => b"stwdtotwtdstwtotwdtw",
    }
}

/// Case `n`'s sort, and how many of that sort came before it.
fn turn(pattern: &[u8], n: usize) -> (u8, usize) {
    let (round, at) = (n / pattern.len(), n % pattern.len());
    let sort = pattern[at];
    let of_sort = |part: &[u8]| part.iter().filter(|s| **s == sort).count();
    (sort, round * of_sort(pattern) + of_sort(&pattern[..at]))
}

pub fn is_command_word(word: &str) -> bool {
    let mut slots = COMMANDS.iter().copied().flatten();
    slots.any(|slot| matches!(slot, Slot::Word(w) if *w == word))
}

fn all_odds() -> Vec<Odd> {
    let mut odds = Vec::new();
    for command in COMMANDS {
        for (place, slot) in command.iter().enumerate() {
            odds.extend(odd::odd(*slot).into_iter().map(|token| (*command, place, token)));
        }
    }
    odds
}

impl Maker {
    pub fn new(kind: Kind, seed: u64) -> Maker {
        let (fixed, recorded) = match kind {
            Kind::List | Kind::Reformat => fixed::all(kind),
            _ => (Vec::new(), 0),
        };
        Maker { kind, seed, odds: all_odds(), texts: Texts::new(), fixed, recorded }
    }

    /// How many of the fixed cases, which come before those that the seed chooses, the recorded sample has.
    pub fn recorded(&self) -> usize {
        self.recorded
    }

    /// Turn `n` through `total` things, from a place that the seed chooses, near ones far apart in time.
    fn walk(&self, total: usize, n: usize) -> usize {
        // A prime above every total, so that all are met before one comes again.
        const STRIDE: usize = 2_654_435_761;
        let start = Rng::new(self.seed, 0).below(total);
        (start + (n % total) * (STRIDE % total)) % total
    }

    pub fn case(&self, n: usize) -> Vec<u8> {
        if let Some(case) = self.fixed.get(n) {
            return case.clone();
        }
        let n = n - self.fixed.len();
        let mut rng = Rng::new(self.seed, 1 + n as u64);
        let (sort, turn) = turn(pattern(self.kind), n);
        match self.kind {
            Kind::Read => self.read(sort, turn, &mut rng),
            Kind::Header => headers::with_rows(&self.header(sort, turn, &mut rng), &mut rng),
            Kind::Write => self.write(sort, turn, &mut rng),
            Kind::List | Kind::Reformat => self.whole(sort, turn, &mut rng),
        }
    }

    fn read(&self, sort: u8, turn: usize, rng: &mut Rng) -> Vec<u8> {
        match sort {
            b'w' => walk::nth(walk::READ, self.walk(walk::size(walk::READ), turn)),
            b'o' => self.with_odd(turn, rng),
            b'd' if turn.is_multiple_of(2) => damage::nth(self.walk(damage::size(), turn / 2)),
            b'd' => damage::damaged(&self.with_odd(turn, rng), rng.draw() as usize),
            _ => dumps::some(turn, rng),
        }
    }

    fn header(&self, sort: u8, turn: usize, rng: &mut Rng) -> Vec<u8> {
        match sort {
            b'w' => walk::nth(walk::HEADER, self.walk(walk::size(walk::HEADER), turn)),
            b't' => headers::tree(rng),
            b'o' => {
                let (command, place, token) = self.odd(turn);
                headers::with_odd(command, (*place, token), rng)
            }
            b'd' => headers::damaged_tree(rng),
            _ => dumps::from_start(turn, rng),
        }
    }

    fn write(&self, sort: u8, turn: usize, rng: &mut Rng) -> Vec<u8> {
        match sort {
            b'w' => walk::nth(walk::WRITE, self.walk(walk::size(walk::WRITE), turn)),
            b'p' => scripts::nth_part(self.walk(scripts::parts(), turn)),
            _ => scripts::some(&self.texts, rng),
        }
    }

    fn whole(&self, sort: u8, turn: usize, rng: &mut Rng) -> Vec<u8> {
        match sort {
            b'w' => walk::nth(walk::WHOLE, self.walk(walk::size(walk::WHOLE), turn)),
            b't' => whole::some(rng),
            b'o' => {
                let (command, place, token) = self.odd(turn);
                whole::with_odd(command, (*place, token), rng)
            }
            b'd' => whole::damaged_some(rng),
            _ if rng.one_in(20) => whole::long(rng),
            _ => dumps::cut(rng),
        }
    }

    fn odd(&self, turn: usize) -> &Odd {
        &self.odds[self.walk(self.odds.len(), turn)]
    }

    /// A command with an odd token, among good ones.
    fn with_odd(&self, turn: usize, rng: &mut Rng) -> Vec<u8> {
        let (command, place, token) = self.odd(turn);
        let mut out = Vec::new();
        command::put_some(&mut out, 2, rng);
        command::put(&mut out, command, Some((*place, token)), rng);
        command::put_some(&mut out, 2, rng);
        out
    }
}
