//! Consistent hashing with virtual nodes, as source documents 000 and 003 describe and use it: each
//! server has 100 points on a ring of hash numbers, and an id belongs to the server of the next
//! point.

use crate::random::Random;

/// The virtual nodes of a server.
pub const VIRTUAL_NODES: u64 = 100;

/// The points of the ring in order, each with its server.
pub struct Ring {
    points: Vec<(u64, usize)>,
}

/// The hash number of a number.
fn hash(number: u64) -> u64 {
    Random::new(number).next_u64()
}

/// Where a virtual node of a server stands: apart from the hash numbers of ids, which are below
/// 2^30.
fn point(server: usize, node: u64) -> u64 {
    hash(1 << 40 | (server as u64) << 20 | node)
}

impl Ring {
    pub fn of(servers: usize) -> Self {
        let nodes = |server| (0..VIRTUAL_NODES).map(move |node| (point(server, node), server));
        let mut points: Vec<(u64, usize)> = (0..servers).flat_map(nodes).collect();
        points.sort_unstable();
        Ring { points }
    }

    /// The server that stores an id: that of the first point at or after its hash number, or of the
    /// first of all.
    pub fn server(&self, id: u32) -> usize {
        let at = hash(u64::from(id));
        let next = self.points.partition_point(|point| point.0 < at);
        self.points[next % self.points.len()].1
    }
}

#[cfg(test)]
mod tests {
    use super::*;

    #[test]
    fn every_server_gets_its_share_roughly() {
        for servers in [1, 6, 16, 100] {
            let ring = Ring::of(servers);
            let mut counts = vec![0u32; servers];
            for id in 0..10_000 * servers as u32 {
                counts[ring.server(id)] += 1;
            }
            // With 100 points a server's share varies by some 10 %: five times that.
            assert!(counts.iter().all(|count| count.abs_diff(10_000) < 5_000));
        }
    }

    #[test]
    fn ids_move_to_the_new_server_alone() {
        for servers in [5, 16, 255] {
            let (before, after) = (Ring::of(servers), Ring::of(servers + 1));
            let mut moved = 0;
            for id in 0..100_000 {
                let (from, to) = (before.server(id), after.server(id));
                assert!(from == to || to == servers);
                moved += u32::from(from != to);
            }
            let expected = 100_000 / (servers as u32 + 1);
            assert!(moved.abs_diff(expected) < expected / 2, "{moved}");
        }
    }
}
