//! The kinds of lists that are compared.

use crate::archive::{tenant_of, BLANK, CONTENT_RANGE, TENANTS};
use crate::calls::{table_word, Call, CAPACITY, COUNT, SALT, TABLE_WORDS};
use crate::counters;
use crate::differ::{compare_words, run_blank, run_picks, run_replay, Encoded, UNSTORED};
use crate::differ::{Difference, Lent, Tally};
use crate::fractions::{near_fraction, on_fraction};
use crate::lists::{no_tenant, Shape};
use crate::placement::{MAX_CAPACITY, MAX_SERVERS};
use crate::random::Random;
use crate::rows;
use crate::salts;
use crate::unsalted;
use ticket_archive::functions as proved;

/// One list, or a few that belong together, from a generator of its own.
pub type Suite = fn(&mut Random, &mut Tally) -> Result<(), Difference>;

/// Each suite with its share of the calls asked for, in percent.
pub const SUITES: [(&str, Suite, u64); 8] = [
    ("blank media", blank, 40),
    ("damaged media", damaged, 15),
    ("altered tables", altered, 15),
    ("256 servers", many_servers, 10),
    ("draws on a fraction", on_fraction, 10),
    ("draws next to a fraction", near_fraction, 5),
    ("refusal edges", edges, 5),
    ("salts out of range", unsalted::out_of_range, 15),
];

fn blank(random: &mut Random, tally: &mut Tally) -> Result<(), Difference> {
    let shape = if random.one_in(8) {
        Shape::random(random, 48, 24)
    } else {
        Shape::random(random, 8, 6)
    };
    let length = random.between(1, 400) as usize;
    let medium_len = shape.medium_len(random);
    let list = shape.list(random, length);
    run_blank(shape.start(), medium_len, &list, tally)
}

/// A word that a medium might hold: a whole one, a wrong kind or anything.
pub fn any_word(random: &mut Random, shape: &Shape) -> u32 {
    match random.below(6) {
        0 => BLANK,
        1 => shape.id(random),
        2 => 1 << 30 | random.below(CONTENT_RANGE),
        3 => 2 << 30 | random.between(1, 2),
        4 => random.pick(&[0, 1 << 30, 2 << 30, 3 << 30, BLANK - 1]),
        _ => random.word(),
    }
}

pub fn damage(random: &mut Random, shape: &Shape, medium: &mut [u32]) {
    for _ in 0..random.between(1, 3) {
        let at = random.below(medium.len() as u32) as usize;
        medium[at] = any_word(random, shape);
    }
}

/// A list over a medium whose words are altered before it and between its calls.
fn damaged(random: &mut Random, tally: &mut Tally) -> Result<(), Difference> {
    let shape = Shape::random(random, 6, 6);
    let mut medium = vec![BLANK; shape.medium_len(random)];
    if random.one_in(4) {
        damage(random, &shape, &mut medium);
        let list = shape.list(random, 100);
        return run_replay(shape.start(), &medium, &list, &Encoded::new(&list), tally);
    }
    let table = shape.table();
    let mut lent = Lent::counted(random, &table, medium);
    lent.run(&shape.list(random, 12), tally)?;
    for _ in 0..random.between(1, 24) {
        damage(random, &shape, &mut lent.medium);
        let length = random.between(1, 8) as usize;
        let list: Vec<Call> = (0..length).map(|_| shape.call(random)).collect();
        lent.run(&list, tally)?;
    }
    Ok(())
}

/// Lists over tables that the calls did not leave: older copies, altered ones, any words.
fn altered(random: &mut Random, tally: &mut Tally) -> Result<(), Difference> {
    let shape = Shape::random(random, 6, 6);
    let medium = vec![BLANK; shape.medium_len(random)];
    let table = shape.table();
    let mut lent = Lent::counted(random, &table, medium);
    lent.run(&shape.list(random, 12), tally)?;
    let mut older = lent.table.clone();
    for _ in 0..random.between(1, 24) {
        let kept = lent.table.clone();
        match random.below(8) {
            0..=2 => alter(random, &shape, &mut lent.table),
            3 | 4 => lent.table.clone_from(&older),
            5 => older.clone_from(&lent.table),
            6 => raise_used(random, &mut lent.table),
            _ => lent.table = any_table(random, &shape),
        }
        let length = random.between(1, 8) as usize;
        let list: Vec<Call> = (0..length).map(|_| shape.call(random)).collect();
        lent.run(&list, tally)?;
        if random.one_in(2) {
            lent.table = kept;
        }
    }
    Ok(())
}

/// A number that is an edge of a table's rules or near one.
fn table_number(random: &mut Random, shape: &Shape) -> u32 {
    match random.below(4) {
        0 => random.below(shape.capacity + 2),
        1 => random.pick(&[0, 1, 2, 256, 257, 65_536, 65_537, 1 << 24, (1 << 24) + 1]),
        2 => shape.capacity,
        _ => random.word() >> random.below(32),
    }
}

/// Alters one word among those that are read, or the count, the capacity, the salt or a counter.
pub fn alter(random: &mut Random, shape: &Shape, table: &mut [u32]) {
    let number = table_number(random, shape);
    let count = table[COUNT].clamp(1, MAX_SERVERS as u32);
    match random.below(10) {
        0 => table[CAPACITY] = number,
        1 => table[COUNT] = number,
        2 => table[SALT] = salts::any(random),
        3 => table[counters::word_of(random.below(TENANTS))] = counters::any(random),
        part => {
            let server = random.below(count) as usize;
            table[table_word(part as usize % 4, server)] = number;
        }
    }
}

/// Says that a server used another number of entries than it did.
pub fn raise_used(random: &mut Random, table: &mut [u32]) {
    let capacity = table[CAPACITY].min(MAX_CAPACITY);
    let count = table[COUNT].clamp(1, MAX_SERVERS as u32);
    let server = random.below(count) as usize;
    table[table_word(1, server)] = random.below(capacity + 1);
}

/// A table of any words, of which some are sound: weights and used in range, ReadP near 1.
pub fn any_table(random: &mut Random, shape: &Shape) -> Vec<u32> {
    let mut table = vec![0; TABLE_WORDS];
    table[CAPACITY] = shape.capacity;
    table[SALT] = salts::salt(random);
    table[COUNT] = random.below(shape.servers + 1);
    for server in 0..MAX_SERVERS {
        let denominator = match random.below(4) {
            0 => 1 << 24,
            _ => random.between(1, 12),
        };
        let below = if server == 0 { 0 } else { random.below(4) };
        table[table_word(0, server)] = random.below(shape.capacity + 1);
        table[table_word(1, server)] = random.below(shape.capacity + 1);
        table[table_word(2, server)] = denominator - below.min(denominator);
        table[table_word(3, server)] = denominator;
    }
    counters::lend(random, &mut table);
    if random.one_in(4) {
        alter(random, shape, &mut table);
    }
    table
}

/// All 256 servers and one too many, small and full.
fn many_servers(random: &mut Random, tally: &mut Tally) -> Result<(), Difference> {
    let mut shape = Shape::random(random, 4, 1);
    shape.servers = random.between(250, 260);
    let medium_len = shape.medium_len(random);
    let mut list: Vec<Call> = (0..shape.servers)
        .map(|_| Call::AddServer {
            weight: random.below(shape.capacity + 1),
        })
        .collect();
    list.extend((0..1_000).map(|_| shape.call(random)));
    run_blank(shape.start(), medium_len, &list, tally)
}

pub const EDGES: [u32; 17] = [
    0,
    1,
    2,
    3,
    255,
    256,
    257,
    65_535,
    65_536,
    65_537,
    (1 << 27) - 1,
    1 << 27,
    7 << 27,
    CONTENT_RANGE - 1,
    CONTENT_RANGE,
    1 << 31,
    u32::MAX,
];

/// Every argument an edge, capacities at both ends, lengths that hold no whole number of calls.
fn edges(random: &mut Random, tally: &mut Tally) -> Result<(), Difference> {
    let capacity = random.pick(&EDGES);
    let salt = random.pick(&EDGES);
    let servers = random.below(3) as usize;
    let slack = random.below(3) as usize;
    let medium = vec![BLANK; 3 * capacity.min(65_537) as usize * servers + slack];
    let list: Vec<Call> = (0..1_000)
        .map(|_| {
            let subject = random.pick(&EDGES);
            let tenant = edge_tenant(random, subject);
            Call::from_parts(random.below(7), tenant, subject, random.pick(&EDGES))
        })
        .collect();
    let cut = [random.below(18) as usize, random.below(18) as usize];
    let encoded = Encoded::new(&list).cut(cut[0], cut[1]);
    run_replay([capacity, salt], &medium, &list, &encoded, tally)?;
    for _ in 0..20 {
        rows::in_order(random, tally)?;
    }
    table_lengths(random, tally)?;
    pick_edges(random, tally)
}

/// The id's own tenant, any of the eight, or none.
fn edge_tenant(random: &mut Random, id: u32) -> u32 {
    match random.below(4) {
        0 => random.below(TENANTS),
        1 => no_tenant(random),
        _ => tenant_of(id),
    }
}

/// Tables lent with a word too few or too many.
fn table_lengths(random: &mut Random, tally: &mut Tally) -> Result<(), Difference> {
    let length = random.pick(&[0, 1, TABLE_WORDS - 1, TABLE_WORDS, TABLE_WORDS + 1]);
    let mut lent = Lent {
        table: vec![1; length],
        medium: vec![BLANK; 3],
    };
    let id = random.below(CONTENT_RANGE);
    lent.run(&[Call::write(id, 1), Call::lookup(id)], tally)
}

/// Picks over no weight, over too many, over one too great, and with too little room.
fn pick_edges(random: &mut Random, tally: &mut Tally) -> Result<(), Difference> {
    let weights: Vec<u32> = (0..random.pick(&[0, 1, 2, 7, 8, 9, 15, 16, 17, 255, 256, 257]))
        .map(|_| match random.below(2_000) {
            0 => random.pick(&EDGES),
            1..=200 => 0,
            _ => random.below(MAX_CAPACITY + 1),
        })
        .collect();
    let ids: Vec<u32> = (0..random.below(40)).map(|_| random.word()).collect();
    let room = random.below(40) as usize;
    run_picks(&weights, salts::salt(random), &ids, room, tally)?;
    pick_sums(random, &weights, &ids)
}

/// The proved pick of an id under a salt is that of their sum under salt 0.
fn pick_sums(random: &mut Random, weights: &[u32], ids: &[u32]) -> Result<(), Difference> {
    let salt = salts::salt(random);
    let sums: Vec<u32> = ids.iter().map(|id| id.wrapping_add(salt)).collect();
    let picked = |salt: u32, ids: &[u32]| {
        let mut servers = vec![UNSTORED; ids.len()];
        proved::picks(weights, salt, ids, &mut servers);
        servers
    };
    compare_words("picks of sums", &picked(salt, ids), &picked(0, &sums))
        .map_err(|text| format!("{text}\nweights {weights:?}\nsalt {salt}, ids {ids:?}\n"))
}
