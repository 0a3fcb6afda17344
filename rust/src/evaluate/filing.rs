//! How many of many ids each server gets, by the exported `archive_picks` or by the same rule with
//! other draws, and how far that is from the weights.

use std::ops::Range;

use super::ideal;
use super::ids::Map;
use ticket_archive::functions as proved;

/// How many ids are lent in one list.
const CHUNK: u64 = 1 << 16;

/// The threads that share a count.
const THREADS: u64 = 2;

/// Hands the numbers to `handed` in chunks.
fn in_chunks(numbers: Range<u64>, mut handed: impl FnMut(Range<u32>)) {
    let mut begin = numbers.start;
    while begin < numbers.end {
        let end = numbers.end.min(begin + CHUNK);
        handed(begin as u32..end as u32);
        begin = end;
    }
}

/// Splits the numbers among threads, and adds up what each of them counts for every server.
fn shared(numbers: Range<u64>, count: impl Fn(Range<u64>) -> Vec<u64> + Sync) -> Vec<u64> {
    let length = (numbers.end - numbers.start).div_ceil(THREADS);
    let part = |thread| {
        let begin = numbers.start + thread * length;
        begin..numbers.end.min(begin + length)
    };
    let counts: Vec<Vec<u64>> = std::thread::scope(|scope| {
        let start = |thread| {
            scope.spawn({
                let count = &count;
                move || count(part(thread))
            })
        };
        let threads: Vec<_> = (0..THREADS).map(start).collect();
        let ended = threads.into_iter().map(|thread| thread.join());
        ended
            .map(|counts| counts.expect("the count ends"))
            .collect()
    });
    let servers = counts[0].len();
    (0..servers)
        .map(|server| counts.iter().map(|counts| counts[server]).sum())
        .collect()
}

/// How many of the ids of these numbers each server gets by the proved picks, under salt 0.
pub fn picked(weights: &[u32], map: Map, numbers: Range<u64>) -> Vec<u64> {
    shared(numbers, |numbers| {
        let mut counts = vec![0; weights.len()];
        let mut servers = vec![0; CHUNK as usize];
        in_chunks(numbers, |numbers| {
            let ids: Vec<u32> = numbers.map(map).collect();
            let stored = proved::picks(weights, 0, &ids, &mut servers);
            assert_eq!(stored, ids.len(), "the weights are in range");
            for &server in &servers[..stored] {
                counts[server as usize] += 1;
            }
        });
        counts
    })
}

/// The same by the rule with other draws, for the ids in sequence.
pub fn drawn(
    weights: &[u32],
    draw: impl Fn(u32, usize) -> u32 + Copy + Sync,
    numbers: Range<u64>,
) -> Vec<u64> {
    let sum = weights.iter().map(|&weight| u64::from(weight)).sum();
    shared(numbers, |numbers| {
        let mut counts = vec![0; weights.len()];
        in_chunks(numbers, |numbers| {
            for id in numbers {
                counts[ideal::write_server(weights, sum, draw, id)] += 1;
            }
        });
        counts
    })
}

/// How far each count is from the server's share by weight, in percent of that share.
pub fn errors(weights: &[u32], counts: &[u64]) -> Vec<f64> {
    let sum: f64 = weights.iter().map(|&weight| f64::from(weight)).sum();
    let ids = counts.iter().sum::<u64>() as f64;
    let servers = weights.iter().zip(counts);
    let error = |(&weight, &count): (&u32, &u64)| {
        100.0 * (count as f64 * sum / (ids * f64::from(weight)) - 1.0)
    };
    servers.map(error).collect()
}

/// The error that is farthest from 0, and its server.
pub fn worst(errors: &[f64]) -> (usize, f64) {
    let servers = errors.iter().copied().enumerate();
    servers
        .max_by(|one, other| one.1.abs().total_cmp(&other.1.abs()))
        .expect("there is a server")
}

/// The error of the server that gets too much by most.
pub fn most(errors: &[f64]) -> f64 {
    errors.iter().copied().fold(f64::MIN, f64::max)
}

#[cfg(test)]
mod tests {
    use super::*;
    use crate::evaluate::ids::{in_sequence, scattered};
    use crate::placement;

    #[test]
    fn every_id_is_counted_once_and_where_the_rule_puts_it() {
        let weights = [3, 1, 2];
        let numbers = 5..200_003;
        let mut counts = vec![0; 3];
        for number in numbers.clone() {
            counts[placement::write_server(&weights, 0, scattered(number))] += 1;
        }
        assert_eq!(picked(&weights, scattered, 5..200_003), counts);
        let by_draws = drawn(&weights, ideal::three_rounds, 5..200_003);
        assert_eq!(picked(&weights, in_sequence, 5..200_003), by_draws);
    }

    #[test]
    fn errors_are_relative_to_the_weight() {
        let errors = errors(&[1, 3], &[20, 80]);
        assert!((errors[0] + 20.0).abs() < 1e-9 && (errors[1] - 20.0 / 3.0).abs() < 1e-9);
        assert_eq!(worst(&errors).0, 0);
        assert!((most(&errors) - 20.0 / 3.0).abs() < 1e-9);
    }
}
