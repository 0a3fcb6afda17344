//! The salts that lists run under: the edges of their range, others, and those out of range; and
//! how many calls were made under each.

use std::fmt;

use crate::placement::SALT_RANGE;
use crate::random::Random;

/// The first two salts and the last.
const INSIDE: [u32; 3] = [0, 1, SALT_RANGE - 1];

/// The first and the last number that is no salt.
const OUTSIDE: [u32; 2] = [SALT_RANGE, u32::MAX];

/// A salt, three times in five an edge.
pub fn salt(random: &mut Random) -> u32 {
    match random.below(5) {
        0 | 1 => random.below(SALT_RANGE),
        _ => random.pick(&INSIDE),
    }
}

/// A number that is no salt, mostly an edge.
pub fn no_salt(random: &mut Random) -> u32 {
    match random.below(16) {
        0 => random.word() | SALT_RANGE << random.below(2),
        _ => random.pick(&OUTSIDE),
    }
}

/// A salt, or as often a number that is none.
pub fn any(random: &mut Random) -> u32 {
    match random.one_in(2) {
        true => salt(random),
        false => no_salt(random),
    }
}

/// Each edge, and the least number of calls under it in a hundred that are asked for.
const EDGES: [(u32, u64); 5] = [
    (INSIDE[0], 5),
    (INSIDE[1], 13),
    (INSIDE[2], 13),
    (OUTSIDE[0], 5),
    (OUTSIDE[1], 5),
];

/// How many calls were made under each edge, and under the others on both sides of the range.
#[derive(Default)]
pub struct BySalt {
    edges: [u64; 5],
    inside: u64,
    outside: u64,
}

impl BySalt {
    pub fn count(&mut self, salt: u32, calls: u64) {
        let met = match EDGES.iter().position(|edge| edge.0 == salt) {
            Some(at) => &mut self.edges[at],
            None if salt < SALT_RANGE => &mut self.inside,
            None => &mut self.outside,
        };
        *met += calls;
    }

    /// The edges that had too few calls of those asked for.
    pub fn missed(&self, asked: u64) -> Vec<u32> {
        let met = EDGES.iter().zip(self.edges);
        met.filter(|((_, least), met)| *met < asked * least / 100)
            .map(|((salt, _), _)| *salt)
            .collect()
    }
}

impl fmt::Display for BySalt {
    fn fmt(&self, out: &mut fmt::Formatter<'_>) -> fmt::Result {
        for ((salt, _), met) in EDGES.iter().zip(self.edges) {
            write!(out, "{salt}: {met}, ")?;
        }
        write!(
            out,
            "others in range: {}, others out of range: {}",
            self.inside, self.outside
        )
    }
}
