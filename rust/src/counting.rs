//! The counters alone: what lookups and batches add to them, where they stop, which tables they make
//! unsound, and that nothing else has to do with them.

use std::process::ExitCode;

use crate::archive::{Table, BLANK, MAX_COUNTER, TENANTS};
use crate::batch_differ::Room;
use crate::batch_suites::{begun, list, tenant};
use crate::calls::{encode, Call, COUNTERS, OPENED, REFUSAL, REPLY_WORDS, TABLE_WORDS};
use crate::counters::{counter, near_stop, no_counter, of, word_of, Counters, Told};
use crate::differ::{compare_told, compare_words, Difference, Lent, Tally, UNREAD, UNSTORED};
use crate::lists::{caller, moved, Shape};
use crate::random::Random;
use crate::rows::all_refused;
use crate::suites::{alter, any_table, any_word, damage, Suite};
use ticket_archive::functions as proved;

/// Each suite with the rounds that it makes for 10,000 calls asked for.
pub const SUITES: [(&str, Suite, u64); 6] = [
    ("counters from a start", from_start, 10),
    ("counters at the stop", at_the_stop, 10),
    ("counters above the stop", above_the_stop, 5),
    ("lookups refused", refused, 10),
    ("counters after every call", call_by_call, 20),
    ("tables that differ in counters alone", twins, 10),
];

/// Calls and batches from a start, on words that are blank, damaged in between, or any. After each
/// of them every counter is the sum of the opened counts that its tenant was told.
fn from_start(random: &mut Random, tally: &mut Tally) -> Result<(), Difference> {
    tally.counting += 1;
    let shape = Shape::random(random, 8, 6).mostly_of_one(random);
    let [capacity, salt] = shape.start();
    let mut table = vec![UNSTORED; TABLE_WORDS];
    proved::start(capacity, salt, &mut table);
    let medium = vec![BLANK; shape.medium_len(random)];
    let mut lent = Lent { table, medium };
    let mut told = lent.run_told(&shape.list(random, 40), tally)?;
    let words = random.below(3);
    for _ in 0..random.between(1, 10) {
        match words {
            0 => {}
            1 => damage(random, &shape, &mut lent.medium),
            _ => lent.medium.fill_with(|| any_word(random, &shape)),
        }
        told.extend(step(random, &shape, &mut lent, tally)?);
        compare_told(&[0; TABLE_WORDS], &told, &lent.table)
            .map_err(|text| format!("since the start: {text}\n{told:?}"))?;
    }
    Ok(())
}

/// Some calls, or a batch of any length; answers what was replied to the lookups.
fn step(
    random: &mut Random,
    shape: &Shape,
    lent: &mut Lent,
    tally: &mut Tally,
) -> Result<Vec<Told>, Difference> {
    if random.one_in(2) {
        return lent.run_told(&calls(random, shape), tally);
    }
    let ids = list(random, shape);
    let tenant = tenant(random, shape, &ids);
    lent.run_batch_told(tenant, &ids, Room::of(ids.len()), tally)
}

fn calls(random: &mut Random, shape: &Shape) -> Vec<Call> {
    let length = random.between(1, 20);
    (0..length).map(|_| shape.call(random)).collect()
}

/// Each tenant's counter at the stop or near it, then its lookups, one by one and in a batch, and
/// calls that are no lookups.
fn at_the_stop(random: &mut Random, tally: &mut Tally) -> Result<(), Difference> {
    tally.counting += 1;
    let (shape, mut lent) = begun(random, tally)?;
    for tenant in 0..TENANTS {
        let length = random.between(1, 40);
        let id = |random: &mut Random| moved(random.pick(&shape.ids), tenant);
        let ids: Vec<u32> = (0..length).map(|_| id(random)).collect();
        let writes = ids.iter().take(3).map(|&id| Call::write(id, 1));
        lent.run(&writes.collect::<Vec<Call>>(), tally)?;
        approach(random, &mut lent, tenant, &ids);
        let lookups: Vec<Call> = ids.iter().map(|&id| Call::lookup(id)).collect();
        lent.run(&lookups, tally)?;
        approach(random, &mut lent, tenant, &ids);
        lent.run_batch(tenant, &ids, Room::of(ids.len()), tally)?;
        lent.run(&others(random, &shape), tally)?;
    }
    Ok(())
}

/// Puts a tenant's counter where these lookups reach the stop or nearly, pass it, or begin at it.
fn approach(random: &mut Random, lent: &mut Lent, tenant: u32, ids: &[u32]) {
    let table = Table::from_words(lent.table.first_chunk().expect("a whole table"));
    let opens = |&id: &u32| table.opens(&lent.medium, tenant, id).len() as u32;
    let all: u32 = ids.iter().map(opens).sum();
    lent.table[word_of(tenant)] = match random.below(6) {
        0 => near_stop(random),
        1 => MAX_COUNTER - all,
        2 => MAX_COUNTER - all - 1,
        _ => MAX_COUNTER - random.below(all + 1),
    };
}

/// Calls that are no lookups.
fn others(random: &mut Random, shape: &Shape) -> Vec<Call> {
    let mut calls = calls(random, shape);
    calls.retain(|call| !matches!(call, Call::Lookup { .. }));
    calls
}

/// Each tenant's counter above the stop: every call and every id of a batch is refused by 1, whoever
/// makes it, and changes nothing. With a counter in range the same calls run again.
fn above_the_stop(random: &mut Random, tally: &mut Tally) -> Result<(), Difference> {
    tally.counting += 1;
    let (shape, mut lent) = begun(random, tally)?;
    for tenant in 0..TENANTS {
        let calls = calls(random, &shape);
        lent.table[word_of(tenant)] = no_counter(random);
        all_refused(&mut lent, &calls, tally)?;
        lent.run(&calls, tally)?;
        let ids = list(random, &shape);
        let caller = caller(random, shape.ids[0]);
        lent.run_batch(caller, &ids, Room::of(ids.len()), tally)?;
        lent.table[word_of(tenant)] = near_stop(random);
        lent.run(&calls, tally)?;
    }
    Ok(())
}

/// Lookups of ids that are found, that are absent, whose value word is no value, that the caller may
/// not name, on too short a medium, and on no server.
fn refused(random: &mut Random, tally: &mut Tally) -> Result<(), Difference> {
    tally.counting += 1;
    let (shape, mut lent) = begun(random, tally)?;
    let writes = shape.ids.iter().map(|&id| Call::write(id, 1));
    lent.run(&writes.collect::<Vec<Call>>(), tally)?;
    spoil(random, &mut lent.medium);
    match random.below(8) {
        0 => drop(lent.medium.pop()),
        1 => lent = Lent::counted(random, &shape.table(), lent.medium),
        _ => {}
    }
    let lookup = |random: &mut Random| {
        let id = shape.id(random);
        (caller(random, id), id)
    };
    for _ in 0..random.between(1, 8) {
        let asked: Vec<(u32, u32)> = (0..6).map(|_| lookup(random)).collect();
        for &(tenant, id) in &asked {
            one_lookup(&lent, tenant, id)?;
        }
        let calls = asked
            .iter()
            .map(|&(tenant, id)| Call::Lookup { tenant, id });
        lent.run(&calls.collect::<Vec<Call>>(), tally)?;
        let ids = list(random, &shape);
        let tenant = tenant(random, &shape, &ids);
        lent.run_batch(tenant, &ids, Room::of(ids.len()), tally)?;
    }
    Ok(())
}

/// Gives about half of the live entries a value word that is no value.
fn spoil(random: &mut Random, medium: &mut [u32]) {
    let is_live = |entry: &&mut [u32]| entry[0] != BLANK && entry[2] == BLANK;
    for entry in medium.chunks_exact_mut(3).filter(is_live) {
        if random.one_in(2) {
            entry[1] = random.pick(&[0, 2 << 30 | 1, 3 << 30, BLANK]);
        }
    }
}

/// What one proved call replied and left.
struct Called {
    reply: [u32; REPLY_WORDS],
    table: Vec<u32>,
    medium: Vec<u32>,
}

fn called(lent: &Lent, call: Call) -> Called {
    let (mut table, mut medium) = (lent.table.clone(), lent.medium.clone());
    let mut reply = [UNSTORED; REPLY_WORDS];
    proved::call(&mut table, &mut medium, &call.words(UNREAD), &mut reply);
    Called {
        reply,
        table,
        medium,
    }
}

/// A proved lookup that is accepted or refused by 8 or 10 opens a server, and changes its tenant's
/// counter and no other word. Any other refused call opens none and changes nothing, and any other
/// accepted one keeps the counters. This is told here and not by the Rust implementation.
fn one_call(lent: &Lent, call: Call) -> Result<Called, Difference> {
    let left = called(lent, call);
    let (refusal, opened) = (left.reply[REFUSAL], left.reply[OPENED]);
    let mut expected = lent.table.clone();
    let searched = match call {
        Call::Lookup { tenant, .. } if [0, 8, 10].contains(&refusal) => Some(tenant),
        _ => None,
    };
    if searched.is_some() != (opened > 0) {
        return Err(format!("{call:?}: refusal {refusal}, {opened} opened"));
    }
    if let Some(tenant) = searched {
        let counter = &mut expected[word_of(tenant)];
        *counter = (*counter + opened).min(MAX_COUNTER);
    }
    let compared = match searched.is_some() || refusal != 0 {
        true => compare_words(
            "table as it should be in the place of Rust",
            &left.table,
            &expected,
        )
        .and_then(|()| compare_words("medium", &left.medium, &lent.medium)),
        false => compare_told(&lent.table, &[], &left.table),
    };
    compared.map_err(|text| format!("{call:?}: {text}"))?;
    Ok(left)
}

/// The same of a lookup, and a batch of the id leaves the same table.
fn one_lookup(lent: &Lent, tenant: u32, id: u32) -> Result<(), Difference> {
    let left = one_call(lent, Call::Lookup { tenant, id })?;
    let mut batch = Lent {
        table: lent.table.clone(),
        medium: lent.medium.clone(),
    };
    batch_answers(&mut batch, tenant, &[id]);
    compare_words("table after a batch", &batch.table, &left.table)
        .map_err(|text| format!("{id} by {tenant}: {text}"))
}

/// The table after every call of a list, on words and tables that are altered in between.
fn call_by_call(random: &mut Random, tally: &mut Tally) -> Result<(), Difference> {
    tally.counting += 1;
    let (shape, mut lent) = begun(random, tally)?;
    for _ in 0..random.between(1, 60) {
        match random.below(16) {
            0 => damage(random, &shape, &mut lent.medium),
            1 => alter(random, &shape, &mut lent.table),
            2 => lent.table = any_table(random, &shape),
            _ => {}
        }
        let call = shape.call(random);
        one_call(&lent, call)?;
        lent.run(&[call], tally)?;
    }
    Ok(())
}

/// Two sound tables that differ in counters alone: the same calls and batches get the same replies,
/// and leave the same medium and, but for the counters, the same table. Both are run on the proved
/// code.
fn twins(random: &mut Random, tally: &mut Tally) -> Result<(), Difference> {
    tally.counting += 1;
    let (shape, mut one) = begun(random, tally)?;
    let mut other = Lent {
        table: one.table.clone(),
        medium: one.medium.clone(),
    };
    for tenant in 0..TENANTS {
        other.table[word_of(tenant)] = counter(random);
    }
    for _ in 0..random.between(1, 8) {
        if random.one_in(3) {
            damage(random, &shape, &mut one.medium);
            other.medium.clone_from(&one.medium);
        }
        let before = [of(&one.table), of(&other.table)];
        let calls = calls(random, &shape);
        let ids = list(random, &shape);
        let tenant = tenant(random, &shape, &ids);
        let told = |lent: &mut Lent| {
            let replies = answers(lent, &calls);
            [replies, batch_answers(lent, tenant, &ids)].concat()
        };
        let [ours, theirs] = [told(&mut one), told(&mut other)];
        compare_words(
            "answers, the other table in the place of Rust",
            &ours,
            &theirs,
        )
        .and_then(|()| compare_words("medium", &one.medium, &other.medium))
        .and_then(|()| compare_words("table", &without(&one.table), &without(&other.table)))
        .map_err(|text| {
            format!("{text}\ncounters {before:?}\n{calls:?}\nbatch of {ids:?} by {tenant}\n")
        })?;
    }
    Ok(())
}

/// The words of a table but for its counters.
fn without(table: &[u32]) -> Vec<u32> {
    [&table[..COUNTERS], &table[TABLE_WORDS..]].concat()
}

/// What the proved code replies to a list, and how many calls it ran.
fn answers(lent: &mut Lent, list: &[Call]) -> Vec<u32> {
    let mut replies = vec![UNSTORED; REPLY_WORDS * list.len()];
    let words = encode(list, UNREAD);
    let ran = proved::resume(&mut lent.table, &words, &mut lent.medium, &mut replies);
    replies.push(ran as u32);
    replies
}

/// What it answers to a batch: replies, order, mounts and number.
fn batch_answers(lent: &mut Lent, tenant: u32, ids: &[u32]) -> Vec<u32> {
    let mut replies = vec![UNSTORED; REPLY_WORDS * ids.len()];
    let mut order = vec![UNSTORED; ids.len()];
    let mut mounts = [UNSTORED];
    let Lent { table, medium } = lent;
    let number = proved::lookup_batch(
        table,
        medium,
        tenant,
        ids,
        &mut replies,
        &mut order,
        &mut mounts,
    );
    [replies, order, vec![mounts[0], number]].concat()
}

/// So many servers, each opened by every lookup of an id that is absent.
const SERVERS: u32 = 256;

/// From a start to the stop by batches alone, on a table that nobody alters: 256 ids that are absent
/// open 256 servers each, so that the last of 16,384 batches would pass the stop by 1.
pub fn to_the_stop() -> ExitCode {
    match batches_to_the_stop() {
        Ok(batches) => {
            println!("from a start to the stop: {batches} batches");
            ExitCode::SUCCESS
        }
        Err(difference) => {
            println!("DIFFERENCE\n{difference}");
            ExitCode::FAILURE
        }
    }
}

fn batches_to_the_stop() -> Result<u32, Difference> {
    let mut lent = all_readable();
    let tenant = 5;
    let ids: Vec<u32> = (0..256).map(|id| moved(id, tenant)).collect();
    let mut sum = 0;
    let mut batches = 0;
    while sum <= MAX_COUNTER {
        let answers = batch_answers(&mut lent, tenant, &ids);
        let replies = answers.chunks_exact(REPLY_WORDS).take(ids.len());
        let opened: u32 = replies.map(|reply| reply[OPENED]).sum();
        compare_words("opened by a batch", &[opened], &[256 * SERVERS])?;
        sum += opened;
        batches += 1;
        let mut expected = [0; TENANTS as usize];
        expected[tenant as usize] = sum.min(MAX_COUNTER);
        compare_words("counters by batches", &counters_of(&lent), &expected)?;
    }
    answers(&mut lent, &[Call::lookup(ids[0]), Call::lookup(0)]);
    let expected = [SERVERS, 0, 0, 0, 0, MAX_COUNTER, 0, 0];
    compare_words("counters at the stop", &counters_of(&lent), &expected)?;
    Ok(batches)
}

fn counters_of(lent: &Lent) -> Counters {
    of(&lent.table).expect("a whole table")
}

/// Servers of capacity 1 that were added with the only weight, so that each has ReadP 1.
fn all_readable() -> Lent {
    let mut lent = Lent {
        table: vec![UNSTORED; TABLE_WORDS],
        medium: vec![BLANK; 3 * SERVERS as usize],
    };
    proved::start(1, 0, &mut lent.table);
    let added = (0..SERVERS).flat_map(|server| {
        let weight = 0;
        [
            Call::AddServer { weight: 1 },
            Call::Reweight { server, weight },
        ]
    });
    answers(&mut lent, &added.collect::<Vec<Call>>());
    lent
}
