//! The write rule with other random numbers in place of the prescribed draw: what the shares would
//! be if the draws of nearby ids, and of one id on several servers, had nothing to do with each
//! other.

use crate::placement::{round, step};

/// The finalizer of splitmix64 over both numbers.
pub fn splitmix(id: u32, server: usize) -> u32 {
    let both = u64::from(id) << 32 | server as u64;
    let mut z = both.wrapping_mul(0x9e37_79b9_7f4a_7c15);
    z = (z ^ (z >> 30)).wrapping_mul(0xbf58_476d_1ce4_e5b9);
    z = (z ^ (z >> 27)).wrapping_mul(0x94d0_49bb_1331_11eb);
    ((z ^ (z >> 31)) >> 32) as u32
}

/// The prescribed seed, of salt 0.
fn seed(id: u32, server: usize) -> u32 {
    id.wrapping_add(step(server)).max(1)
}

/// The prescribed seed after three rounds: the draw itself.
pub fn three_rounds(id: u32, server: usize) -> u32 {
    round(round(round(seed(id, server))))
}

/// The prescribed seed after twelve rounds: more of the same, and still linear over the bits.
pub fn twelve_rounds(id: u32, server: usize) -> u32 {
    (0..12).fold(seed(id, server), |s, _| round(s))
}

/// The prescribed seed after the finalizer of MurmurHash3, which multiplies and so is not linear.
pub fn murmur(id: u32, server: usize) -> u32 {
    let mut h = seed(id, server);
    h = (h ^ (h >> 16)).wrapping_mul(0x85eb_ca6b);
    h = (h ^ (h >> 13)).wrapping_mul(0xc2b2_ae35);
    h ^ (h >> 16)
}

/// The highest server whose WriteP exceeds its draw.
#[inline(always)]
pub fn write_server(weights: &[u32], sum: u64, draw: impl Fn(u32, usize) -> u32, id: u32) -> usize {
    let mut sum = sum;
    for (server, &weight) in weights.iter().enumerate().skip(1).rev() {
        if u64::from(weight) << 32 > u64::from(draw(id, server)) * sum {
            return server;
        }
        sum -= u64::from(weight);
    }
    0
}

#[cfg(test)]
mod tests {
    use super::*;
    use crate::placement;

    #[test]
    fn three_rounds_are_the_prescribed_draw() {
        assert_eq!(three_rounds(626_627_286, 2), 2_647_435_461);
        let weights = [5, 0, 3, 7, 65_536, 1];
        let sum = weights.iter().map(|&weight| u64::from(weight)).sum();
        for id in (0..1 << 30).step_by(1_000_003) {
            let picked = write_server(&weights, sum, three_rounds, id);
            assert_eq!(picked, placement::write_server(&weights, 0, id));
        }
    }

    #[test]
    fn rounds_are_linear_over_the_bits_and_finalizers_are_not() {
        let rounds = |seed: u32| round(round(round(seed)));
        let pairs =
            (1..1_000u32).map(|at| (at.wrapping_mul(2_654_435_769), at.wrapping_mul(40_503)));
        let mut apart = 0;
        for (one, other) in pairs {
            assert_eq!(rounds(one ^ other), rounds(one) ^ rounds(other));
            let id = |seed: u32| seed.wrapping_sub(step(0));
            let mixed = |seed: u32| murmur(id(seed), 0);
            apart += u32::from(mixed(one ^ other) != mixed(one) ^ mixed(other));
        }
        assert!(apart > 990);
    }

    #[test]
    fn good_numbers_file_by_the_weights() {
        let weights = [1, 2, 3, 4];
        for draw in [splitmix as fn(u32, usize) -> u32, murmur] {
            let mut counts = [0u32; 4];
            for id in 0..100_000 {
                counts[write_server(&weights, 10, draw, id)] += 1;
            }
            for (count, weight) in counts.iter().zip(weights) {
                assert!(count.abs_diff(10_000 * weight) < 600, "{counts:?}");
            }
        }
    }
}
