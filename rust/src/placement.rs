//! The published method on plain numbers: draws, fractions and the write server.

pub const MAX_SERVERS: usize = 256;
pub const MAX_CAPACITY: u32 = 65_536;

/// The salts are those below this.
pub const SALT_RANGE: u32 = 1 << 30;

/// The constant of each server that is added to an id.
pub fn step(server: usize) -> u32 {
    (server as u32).wrapping_add(1).wrapping_mul(2_654_435_769)
}

/// One round of Marsaglia's xorshift, shifts 13, 17, 5.
pub fn round(mut s: u32) -> u32 {
    s ^= s << 13;
    s ^= s >> 17;
    s ^ (s << 5)
}

/// The draw of an id on a server, in an archive with this salt.
pub fn draw(salt: u32, id: u32, server: usize) -> u32 {
    let seed = id.wrapping_add(step(server)).wrapping_add(salt).max(1);
    round(round(round(seed)))
}

/// A pair that is never reduced.
#[derive(Clone, Copy, Debug, PartialEq, Eq)]
pub struct Fraction {
    pub numerator: u32,
    pub denominator: u32,
}

impl Fraction {
    pub const ZERO: Fraction = Fraction::new(0, 1);
    pub const ONE: Fraction = Fraction::new(1, 1);

    pub const fn new(numerator: u32, denominator: u32) -> Self {
        Fraction {
            numerator,
            denominator,
        }
    }

    /// Whether the fraction exceeds draw / 2^32.
    pub fn exceeds(self, draw: u32) -> bool {
        u64::from(self.numerator) << 32 > u64::from(draw) * u64::from(self.denominator)
    }

    pub fn is_above(self, other: Fraction) -> bool {
        u64::from(self.numerator) * u64::from(other.denominator)
            > u64::from(other.numerator) * u64::from(self.denominator)
    }
}

/// WriteP of a server, `sum` being the weights up to and including its own.
pub fn share(server: usize, weight: u32, sum: u32) -> Fraction {
    match (server, weight) {
        (0, _) => Fraction::ONE,
        (_, 0) => Fraction::ZERO,
        _ => Fraction::new(weight, sum),
    }
}

/// The highest server whose WriteP exceeds its draw. The weights are at most 65,536 each.
pub fn write_server(weights: &[u32], salt: u32, id: u32) -> usize {
    let mut sum: u32 = weights.iter().sum();
    for (server, &weight) in weights.iter().enumerate().skip(1).rev() {
        if Fraction::new(weight, sum).exceeds(draw(salt, id, server)) {
            return server;
        }
        sum -= weight;
    }
    0
}

/// Whether there are 1 to 256 weights, each of at most 65,536, and a salt in range.
pub fn can_pick(weights: &[u32], salt: u32) -> bool {
    (1..=MAX_SERVERS).contains(&weights.len())
        && weights.iter().all(|&weight| weight <= MAX_CAPACITY)
        && salt < SALT_RANGE
}

/// Picks the write server of each id; answers how many were picked.
pub fn picks(weights: &[u32], salt: u32, ids: &[u32], servers: &mut [u32]) -> usize {
    if !can_pick(weights, salt) {
        return 0;
    }
    for (&id, server) in ids.iter().zip(servers.iter_mut()) {
        *server = write_server(weights, salt, id) as u32;
    }
    ids.len().min(servers.len())
}
