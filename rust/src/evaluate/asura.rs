//! ASURA, from source document 003: sections II-A to II-C and the pseudocode of its appendix A, with
//! the parameters of its section IV-B: the first generator draws below 16, each further one below
//! twice as much, and the nodes have consecutive segments of length 1.

use crate::random::Random;

/// Below what the first generator draws (DEFAULT_MAXIMUM_RANDOM_NUMBER).
const FIRST_RANGE: u32 = 16;

/// The most generators: ranges up to 16 * 2^15.
const GENERATORS: usize = 16;

/// The lengths of the segments, each at most 1; segment k begins at k and belongs to server k.
pub struct Asura {
    lengths: Vec<f64>,
}

/// A random number from 0.0 on and below 1.0.
fn unit(random: &mut Random) -> f64 {
    (random.next_u64() >> 11) as f64 / (1u64 << 53) as f64
}

impl Asura {
    /// So many servers of equal capacity.
    pub fn equal(servers: usize) -> Self {
        Asura {
            lengths: vec![1.0; servers],
        }
    }

    /// The number of the widest generator that is needed, and its range.
    fn widest(&self) -> (usize, u32) {
        let (mut generator, mut range) = (0, FIRST_RANGE);
        while (range as usize) < self.lengths.len() {
            range *= 2;
            generator += 1;
        }
        (generator, range)
    }

    /// The next ASURA random number: a draw of the widest generator, replaced by one of the next
    /// narrower generator as long as it lies within that one's range.
    fn number(&self, widest: (usize, u32), generators: &mut [Random]) -> f64 {
        let (mut generator, mut range) = widest;
        loop {
            let result = loop {
                let result = unit(&mut generators[generator]) * f64::from(range);
                if result < self.lengths.len() as f64 {
                    break result;
                }
            };
            range /= 2;
            if result >= f64::from(range) || generator == 0 {
                return result;
            }
            generator -= 1;
        }
    }

    /// The server that stores an id: the first ASURA random number that points into a segment.
    pub fn server(&self, id: u32) -> usize {
        let widest = self.widest();
        let mut seeds = Random::new(u64::from(id));
        let mut generators: [Random; GENERATORS] = std::array::from_fn(|_| Random::new(0));
        for generator in &mut generators[..=widest.0] {
            *generator = Random::new(seeds.next_u64());
        }
        loop {
            let result = self.number(widest, &mut generators);
            let segment = result as usize;
            if result < segment as f64 + self.lengths[segment] {
                return segment;
            }
        }
    }
}

#[cfg(test)]
mod tests {
    use super::*;

    #[test]
    fn ids_go_to_all_servers_alike() {
        for servers in [1, 6, 16, 17, 100] {
            let asura = Asura::equal(servers);
            let mut counts = vec![0u32; servers];
            let ids = 10_000 * servers as u32;
            for id in 0..ids {
                counts[asura.server(id)] += 1;
            }
            // The standard deviation of a count is at most 100: five of them.
            assert!(counts.iter().all(|count| count.abs_diff(10_000) < 500));
        }
    }

    #[test]
    fn a_shorter_segment_gets_less() {
        let asura = Asura {
            lengths: vec![1.0, 0.5, 1.0],
        };
        let half = (0..100_000).filter(|&id| asura.server(id) == 1).count();
        assert!(half.abs_diff(20_000) < 700, "{half}");
    }

    #[test]
    fn ids_move_to_the_new_server_alone() {
        for servers in [5, 15, 16, 31, 32, 33] {
            let (before, after) = (Asura::equal(servers), Asura::equal(servers + 1));
            let mut moved = 0;
            for id in 0..50_000 {
                let (from, to) = (before.server(id), after.server(id));
                assert!(from == to || to == servers);
                moved += u32::from(from != to);
            }
            let expected = 50_000 / (servers as u32 + 1);
            assert!(moved.abs_diff(expected) < expected / 5, "{moved}");
        }
    }
}
