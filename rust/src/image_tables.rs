//! Tables to be written as images: sound ones with their numbers at the bounds, and those with one
//! number out of range.

use crate::archive::{MAX_DENOMINATOR, TENANTS};
use crate::calls::{table_word, CAPACITY, COUNT, SALT, TABLE_WORDS};
use crate::counters;
use crate::placement::{MAX_CAPACITY, MAX_SERVERS};
use crate::random::Random;
use crate::salts;

const WEIGHT: usize = 0;
const USED: usize = 1;
const NUMERATOR: usize = 2;
const DENOMINATOR: usize = 3;

/// Mostly few servers, or none, or all, or nearly all.
pub fn count(random: &mut Random) -> usize {
    match random.below(16) {
        0 | 1 => 0,
        2 | 3 => 1,
        4 => random.pick(&[254, 255]),
        5 | 6 => MAX_SERVERS,
        7 => random.below(257) as usize,
        _ => random.between(1, 8) as usize,
    }
}

/// A sound table of so many servers. Half of the time it has any words above its count.
pub fn sound(random: &mut Random, count: usize) -> Vec<u32> {
    let mut table = vec![0; TABLE_WORDS];
    if random.one_in(2) {
        table.fill_with(|| random.word());
    }
    table[CAPACITY] = match random.below(4) {
        0 => 1,
        1 => MAX_CAPACITY,
        2 => random.between(1, 8),
        _ => random.between(1, MAX_CAPACITY),
    };
    table[SALT] = salts::salt(random);
    table[COUNT] = count as u32;
    let mut sum = 0;
    for server in 0..count {
        sum += add_server(random, &mut table, server, sum);
    }
    for tenant in 0..TENANTS {
        table[counters::word_of(tenant)] = counters::counter(random);
    }
    table
}

/// Gives a server its numbers, `sum` being the weights before it; answers its weight.
fn add_server(random: &mut Random, table: &mut [u32], server: usize, sum: u32) -> u32 {
    let weight = entries(random, table[CAPACITY]);
    table[table_word(WEIGHT, server)] = weight;
    table[table_word(USED, server)] = entries(random, table[CAPACITY]);
    let denominator = match random.below(5) {
        0 => 1,
        1 => MAX_DENOMINATOR,
        2 => (sum + weight).max(1),
        3 => random.between(1, 12),
        _ => random.between(1, MAX_DENOMINATOR),
    };
    let least = least_numerator(server, weight, sum + weight, denominator);
    let numerator = match random.below(4) {
        0 | 1 => least,
        2 => denominator,
        _ => random.between(least, denominator),
    };
    table[table_word(NUMERATOR, server)] = numerator;
    table[table_word(DENOMINATOR, server)] = denominator;
    weight
}

/// A number of entries up to the capacity, often one of the ends.
fn entries(random: &mut Random, capacity: u32) -> u32 {
    match random.below(4) {
        0 => 0,
        1 => capacity,
        _ => random.below(capacity + 1),
    }
}

/// The least numerator over a denominator that is at least WriteP: 1 for server 0, and for others
/// the weight over the sum of the weights up to it.
fn least_numerator(server: usize, weight: u32, sum: u32, denominator: u32) -> u32 {
    if server == 0 {
        return denominator;
    }
    let product = u64::from(weight) * u64::from(denominator);
    product.div_ceil(u64::from(sum.max(1))) as u32
}

/// A way to put one number out of range, in a sound table that has a server.
type Spoil = fn(&mut Random, &mut Vec<u32>);

/// Each with its name.
pub const UNSOUND: [(&str, Spoil); 11] = [
    ("capacity 0", |_, table| no_capacity(table)),
    ("capacity above 65,536", |random, table| {
        table[CAPACITY] = random.pick(&[65_537, 65_537, 1 << 17, (1 << 30) - 1, u32::MAX]);
    }),
    ("salt", |random, table| table[SALT] = salts::no_salt(random)),
    ("count", too_many_servers),
    ("weight", |random, table| too_much_weight(random, table)),
    ("used", |random, table| {
        let server = any_server(random, table);
        table[table_word(USED, server)] = above(random, table[CAPACITY]);
    }),
    ("ReadP denominator 0", |random, table| {
        set_read_p(random, table, |_| (0, 0))
    }),
    ("ReadP denominator above 2^24", |random, table| {
        set_read_p(random, table, |random| {
            let denominator = above(random, MAX_DENOMINATOR);
            (denominator, denominator)
        })
    }),
    ("ReadP above 1", |random, table| {
        set_read_p(random, table, |random| {
            let denominator = random.pick(&[1, 2, MAX_DENOMINATOR]);
            (above(random, denominator), denominator)
        })
    }),
    ("ReadP below WriteP", |random, table| {
        too_low_read_p(random, table)
    }),
    ("counter", |random, table| {
        let tenant = random.below(TENANTS);
        table[counters::word_of(tenant)] = counters::no_counter(random);
    }),
];

/// A table that is unsound in one of these ways.
pub fn unsound(random: &mut Random, kind: usize) -> Vec<u32> {
    let servers = count(random).max(1);
    let mut table = sound(random, servers);
    let (_, spoil) = UNSOUND[kind];
    spoil(random, &mut table);
    table
}

fn any_server(random: &mut Random, table: &[u32]) -> usize {
    match random.below(4) {
        0 => 0,
        1 => table[COUNT] as usize - 1,
        _ => random.below(table[COUNT]) as usize,
    }
}

/// A number above a bound that is below 2^30, mostly by 1.
fn above(random: &mut Random, bound: u32) -> u32 {
    match random.below(8) {
        0 => random.between(bound + 1, (1 << 30) - 1),
        1 => (1 << 30) - 1,
        _ => bound + 1,
    }
}

/// The count alone is wrong: the table has the numbers of 256 servers.
fn too_many_servers(random: &mut Random, table: &mut Vec<u32>) {
    *table = sound(random, MAX_SERVERS);
    table[COUNT] = random.pick(&[257, 257, 258, 512, 1 << 16, u32::MAX]);
}

/// The capacity is 0, and weights and used are too, as it says.
fn no_capacity(table: &mut [u32]) {
    table[CAPACITY] = 0;
    for server in 0..table[COUNT] as usize {
        table[table_word(WEIGHT, server)] = 0;
        table[table_word(USED, server)] = 0;
    }
}

/// The server has ReadP 1, so that its weight alone is wrong.
fn too_much_weight(random: &mut Random, table: &mut [u32]) {
    let server = any_server(random, table);
    table[table_word(WEIGHT, server)] = above(random, table[CAPACITY]);
    table[table_word(NUMERATOR, server)] = 1;
    table[table_word(DENOMINATOR, server)] = 1;
}

fn set_read_p(random: &mut Random, table: &mut [u32], read_p: fn(&mut Random) -> (u32, u32)) {
    let server = any_server(random, table);
    let (numerator, denominator) = read_p(random);
    table[table_word(NUMERATOR, server)] = numerator;
    table[table_word(DENOMINATOR, server)] = denominator;
}

/// A server's ReadP is the greatest of its denominator that is below WriteP.
fn too_low_read_p(random: &mut Random, table: &mut [u32]) {
    let mut server = any_server(random, table);
    if table[table_word(WEIGHT, server)] == 0 {
        server = 0;
    }
    let weights = &table[table_word(WEIGHT, 0)..=table_word(WEIGHT, server)];
    let sum: u32 = weights.iter().sum();
    let denominator = table[table_word(DENOMINATOR, server)];
    let least = least_numerator(server, weights[server], sum, denominator);
    table[table_word(NUMERATOR, server)] = least - 1;
}
