//! The kinds of batches that are compared.

use crate::archive::{tenant_of, BLANK, CONTENT_RANGE};
use crate::batch_differ::Room;
use crate::calls::{Call, CAPACITY, COUNT, REPLY_WORDS};
use crate::differ::{Difference, Lent, Tally};
use crate::lists::{caller, Shape};
use crate::random::Random;
use crate::suites::{alter, any_table, damage, raise_used, Suite};

/// Each suite with its share of the batches asked for, in percent.
pub const SUITES: [(&str, Suite, u64); 6] = [
    ("batches on sound tables", sound, 45),
    ("batches on damaged media", damaged, 20),
    ("batches on altered tables", altered, 20),
    ("batches on short media", short_media, 10),
    ("batches on 256 servers", many_servers, 2),
    ("batches with too little room", little_room, 3),
];

/// A small archive with a list of calls behind it, and now and then more ids than usual. Mostly one
/// tenant has most of them.
pub fn begun(random: &mut Random, tally: &mut Tally) -> Result<(Shape, Lent), Difference> {
    let mut shape = match random.below(8) {
        0 => Shape::random(random, 32, 24),
        _ => Shape::random(random, 8, 6),
    };
    if random.one_in(3) {
        shape.ids = (0..40).map(|_| random.below(CONTENT_RANGE)).collect();
    }
    if !random.one_in(4) {
        shape = shape.mostly_of_one(random);
    }
    let table = shape.table();
    let medium = vec![BLANK; shape.medium_len(random)];
    let mut lent = Lent::counted(random, &table, medium);
    let length = random.between(1, 80) as usize;
    lent.run(&shape.list(random, length), tally)?;
    Ok((shape, lent))
}

/// An id of the shape, or one whose low 30 bits alone are in range.
fn id(random: &mut Random, shape: &Shape) -> u32 {
    let id = shape.id(random);
    match random.below(32) {
        0 => id | random.between(1, 3) << 30,
        1 => random.word(),
        _ => id,
    }
}

fn ids(random: &mut Random, shape: &Shape, length: u32) -> Vec<u32> {
    (0..length).map(|_| id(random, shape)).collect()
}

/// Mostly a short list, or one at the edges of the lengths.
pub fn list(random: &mut Random, shape: &Shape) -> Vec<u32> {
    let length = match random.below(20) {
        0 => 0,
        1 => 1,
        2 => 255,
        3 => 256,
        4 => 257,
        5 => random.between(258, 600),
        6 => random.between(2, 256),
        _ => random.between(1, 24),
    };
    ids(random, shape, length)
}

/// Whose batch it is: mostly that of an id that the calls name, or of one of the list.
pub fn tenant(random: &mut Random, shape: &Shape, ids: &[u32]) -> u32 {
    if !ids.is_empty() && random.one_in(4) {
        return tenant_of(random.pick(ids));
    }
    let id = random.pick(&shape.ids);
    caller(random, id)
}

/// A batch of any length, with just enough room or more.
fn run(
    random: &mut Random,
    shape: &Shape,
    lent: &mut Lent,
    tally: &mut Tally,
) -> Result<(), Difference> {
    let ids = list(random, shape);
    let mut room = Room::of(ids.len());
    if random.one_in(2) {
        room.replies += random.below(12) as usize;
        room.order += random.below(3) as usize;
        room.mounts += random.below(3) as usize;
    }
    let tenant = tenant(random, shape, &ids);
    lent.run_batch(tenant, &ids, room, tally)
}

/// Some calls that change what a batch finds.
fn go_on(
    random: &mut Random,
    shape: &Shape,
    lent: &mut Lent,
    tally: &mut Tally,
) -> Result<(), Difference> {
    let length = random.below(8);
    let list: Vec<Call> = (0..length).map(|_| shape.call(random)).collect();
    lent.run(&list, tally)
}

fn sound(random: &mut Random, tally: &mut Tally) -> Result<(), Difference> {
    let (shape, mut lent) = begun(random, tally)?;
    for _ in 0..random.between(1, 12) {
        run(random, &shape, &mut lent, tally)?;
        go_on(random, &shape, &mut lent, tally)?;
    }
    Ok(())
}

fn damaged(random: &mut Random, tally: &mut Tally) -> Result<(), Difference> {
    let (shape, mut lent) = begun(random, tally)?;
    for _ in 0..random.between(1, 12) {
        damage(random, &shape, &mut lent.medium);
        run(random, &shape, &mut lent, tally)?;
        go_on(random, &shape, &mut lent, tally)?;
    }
    Ok(())
}

/// Tables that the calls did not leave: a word altered, another used, any words; a word too many.
fn altered(random: &mut Random, tally: &mut Tally) -> Result<(), Difference> {
    let (shape, mut lent) = begun(random, tally)?;
    let whole = lent.table.clone();
    for _ in 0..random.between(1, 12) {
        match random.below(6) {
            0..=2 => alter(random, &shape, &mut lent.table),
            3 => raise_used(random, &mut lent.table),
            4 => lent.table = any_table(random, &shape),
            _ => lent.table.push(random.word()),
        }
        run(random, &shape, &mut lent, tally)?;
        if random.one_in(2) {
            lent.table.clone_from(&whole);
        }
    }
    Ok(())
}

fn short_media(random: &mut Random, tally: &mut Tally) -> Result<(), Difference> {
    let (shape, mut lent) = begun(random, tally)?;
    let needed = (3 * lent.table[CAPACITY] * lent.table[COUNT]) as usize;
    let length = match random.below(4) {
        0 => needed,
        1 => needed.saturating_sub(1),
        2 => 0,
        _ => random.below(needed as u32 + 1) as usize,
    };
    lent.medium.truncate(length);
    for _ in 0..random.between(1, 4) {
        run(random, &shape, &mut lent, tally)?;
        go_on(random, &shape, &mut lent, tally)?;
    }
    Ok(())
}

/// All 256 servers, or nearly, and many ids, so that searches end on many of them.
fn many_servers(random: &mut Random, tally: &mut Tally) -> Result<(), Difference> {
    let mut shape = Shape::random(random, 4, 1);
    shape.servers = random.between(250, 257);
    shape.ids = (0..300).map(|_| random.below(CONTENT_RANGE)).collect();
    let shape = shape.mostly_of_one(random);
    let table = shape.table();
    let medium = vec![BLANK; shape.medium_len(random)];
    let mut lent = Lent::counted(random, &table, medium);
    let added = (0..shape.servers).map(|_| Call::AddServer {
        weight: random.below(shape.capacity + 1),
    });
    let mut calls: Vec<Call> = added.collect();
    calls.extend((0..600).map(|_| shape.call(random)));
    lent.run(&calls, tally)?;
    for _ in 0..8 {
        run(random, &shape, &mut lent, tally)?;
        go_on(random, &shape, &mut lent, tally)?;
    }
    Ok(())
}

/// One of the runs is too short; the list may be too long as well.
fn little_room(random: &mut Random, tally: &mut Tally) -> Result<(), Difference> {
    let (shape, mut lent) = begun(random, tally)?;
    let length = random.pick(&[1, 2, 7, 255, 256, 257]);
    let ids = ids(random, &shape, length);
    let less = |random: &mut Random, whole: usize| match random.below(3) {
        0 => random.below(whole as u32) as usize,
        _ => whole - 1,
    };
    let mut room = Room::of(ids.len());
    match random.below(4) {
        0 => room.replies = less(random, REPLY_WORDS * ids.len()),
        1 => room.order = less(random, ids.len()),
        2 => room.mounts = 0,
        _ => {
            let kept = less(random, lent.table.len());
            lent.table.truncate(kept);
        }
    }
    let tenant = tenant(random, &shape, &ids);
    lent.run_batch(tenant, &ids, room, tally)
}
