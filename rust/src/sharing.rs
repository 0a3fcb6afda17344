//! How many ids go to the same server under two salts, by the exported `archive_picks`.

use std::process::ExitCode;

use crate::placement::SALT_RANGE;
use ticket_archive::functions as proved;

const IDS: u32 = 1_000_000;

/// How many servers there are, all of one weight.
const SERVERS: [usize; 3] = [6, 16, 256];

const SALTS: [u32; 6] = [0, 1, 1 << 29, 715_225_739, 123_456_789, 987_654_321];

/// The places of the two salts that are compared.
const PAIRS: [[usize; 2]; 4] = [[0, 1], [0, 2], [0, 3], [4, 5]];

/// The ids from 0 on.
fn consecutive() -> Vec<u32> {
    (0..IDS).collect()
}

/// As many ids all over the range; they differ, since the factor is odd.
fn scattered() -> Vec<u32> {
    let id = |number: u32| number.wrapping_mul(739_982_445) % SALT_RANGE;
    (0..IDS).map(id).collect()
}

/// The server of each id.
fn picked(weights: &[u32], salt: u32, ids: &[u32]) -> Vec<u32> {
    let mut servers = vec![u32::MAX; ids.len()];
    let stored = proved::picks(weights, salt, ids, &mut servers);
    assert_eq!(stored, ids.len());
    servers
}

/// How many of a hundred ids have the same server under both salts.
fn same_server(one: &[u32], other: &[u32]) -> f64 {
    let same = one.iter().zip(other).filter(|(one, other)| one == other);
    100.0 * same.count() as f64 / one.len() as f64
}

/// How many of a hundred pairs of ids that have one server under one salt have one under the other
/// too.
fn same_company(servers: usize, one: &[u32], other: &[u32]) -> f64 {
    let mut alone = vec![0; servers];
    let mut both = vec![0; servers * servers];
    for (&one, &other) in one.iter().zip(other) {
        alone[one as usize] += 1;
        both[one as usize * servers + other as usize] += 1;
    }
    100.0 * pairs(&both) as f64 / pairs(&alone) as f64
}

/// How many pairs there are within groups of these sizes.
fn pairs(sizes: &[u64]) -> u64 {
    sizes
        .iter()
        .map(|size| size * size.saturating_sub(1) / 2)
        .sum()
}

/// The same two for picks that have nothing to do with each other: the sum of the squared shares.
fn by_chance(weights: &[u32]) -> f64 {
    let sum: u32 = weights.iter().sum();
    let share = |&weight: &u32| f64::from(weight) / f64::from(sum);
    let squares = weights.iter().map(|weight| share(weight).powi(2));
    100.0 * squares.sum::<f64>()
}

/// Both numbers for each pair of salts.
fn measured(servers: usize, ids: &[u32]) -> [[f64; 2]; PAIRS.len()] {
    let weights = vec![1; servers];
    let picked = SALTS.map(|salt| picked(&weights, salt, ids));
    PAIRS.map(|pair| {
        let [one, other] = pair.map(|at| &picked[at]);
        [same_server(one, other), same_company(servers, one, other)]
    })
}

const HEAD: &str = "\
Of a million ids: the first two numbers are how many of a hundred go to the same server under two
salts; the next two how many of a hundred pairs that share a server under one salt share one under
the other.

| servers | salts                   | ids from 0 on | scattered | pairs from 0 on | scattered | by chance |
|---------|-------------------------|---------------|-----------|-----------------|-----------|-----------|";

/// Prints a line for each number of servers and each pair of salts.
pub fn print() -> ExitCode {
    let kinds = [consecutive(), scattered()];
    println!("{HEAD}");
    for servers in SERVERS {
        let chance = by_chance(&vec![1; servers]);
        let [near, far] = [0, 1].map(|kind| measured(servers, &kinds[kind]));
        for ((pair, near), far) in PAIRS.iter().zip(near).zip(far) {
            let [one, other] = pair.map(|at| SALTS[at]);
            let salts = format!("{one} and {other}");
            println!(
                "| {servers:>7} | {salts:<23} | {:>13.3} | {:>9.3} | {:>15.3} | {:>9.3} | {chance:>9.3} |",
                near[0], far[0], near[1], far[1]
            );
        }
    }
    ExitCode::SUCCESS
}
