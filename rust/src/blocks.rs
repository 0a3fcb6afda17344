//! Picks of many ids in plain Rust, written for the compiler's vectors: the greatest draw by which
//! each server takes is worked out once, and the draws of an id are compared a block of servers at a
//! time, without an early exit.

use std::array;

use crate::placement::{can_pick, round, step};

/// Servers whose draws are compared together.
const BLOCK: usize = 8;

/// The greatest draw that a server's part exceeds; 0, which nothing draws, where its weight is 0.
fn limit(weight: u32, sum: u32) -> u32 {
    match weight {
        0 => 0,
        _ => (((u64::from(weight) << 32) - 1) / u64::from(sum)) as u32,
    }
}

fn draw(salted: u32, step: u32) -> u32 {
    round(round(round(salted.wrapping_add(step).max(1))))
}

fn server_of(limits: &[u32], steps: &[u32], salted: u32) -> usize {
    let takes = |server: usize| draw(salted, steps[server]) <= limits[server];
    let mut end = limits.len();
    while BLOCK <= end {
        let from = end - BLOCK;
        let taken: [bool; BLOCK] = array::from_fn(|i| takes(from + i));
        if taken.iter().fold(false, |some, &here| some | here) {
            return from + taken.iter().rposition(|&here| here).unwrap_or(0);
        }
        end = from;
    }
    (1..end).rev().find(|&server| takes(server)).unwrap_or(0)
}

/// Picks the write server of each id; answers how many were picked.
pub fn picks(weights: &[u32], salt: u32, ids: &[u32], servers: &mut [u32]) -> usize {
    if !can_pick(weights, salt) {
        return 0;
    }
    let mut sum = 0;
    let limits: Vec<u32> = weights
        .iter()
        .map(|&weight| {
            sum += weight;
            limit(weight, sum)
        })
        .collect();
    let steps: Vec<u32> = (0..weights.len()).map(step).collect();
    for (&id, server) in ids.iter().zip(servers.iter_mut()) {
        *server = server_of(&limits, &steps, id.wrapping_add(salt)) as u32;
    }
    ids.len().min(servers.len())
}
