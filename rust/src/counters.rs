//! The counters that tables are lent with: zeros and others in range, those at the stop and near
//! it, and those above it; and what the replies alone say of the counters after lookups.

use crate::archive::{MAX_COUNTER, TENANTS};
use crate::calls::{Call, COUNTERS, OPENED, REFUSAL, REPLY_WORDS};
use crate::random::Random;

pub type Counters = [u32; TENANTS as usize];

/// The first and the last number that is above every counter.
pub const ABOVE: [u32; 2] = [MAX_COUNTER + 1, u32::MAX];

/// How far below the stop a counter is that is near it.
const NEAR: u32 = 300;

/// The stop, or a counter near it.
pub fn near_stop(random: &mut Random) -> u32 {
    match random.below(4) {
        0 => MAX_COUNTER,
        1 => MAX_COUNTER - random.below(12),
        _ => MAX_COUNTER - random.below(NEAR + 1),
    }
}

/// A counter in range, three times in eight near the stop.
pub fn counter(random: &mut Random) -> u32 {
    match random.below(8) {
        0..=2 => near_stop(random),
        3 | 4 => 0,
        5 => random.below(NEAR),
        _ => random.below(MAX_COUNTER + 1),
    }
}

/// A number above every counter, mostly an edge.
pub fn no_counter(random: &mut Random) -> u32 {
    match random.below(8) {
        0 => random.word() | ABOVE[0] << random.below(2),
        _ => random.pick(&ABOVE),
    }
}

/// A counter, or as often a number above.
pub fn any(random: &mut Random) -> u32 {
    match random.one_in(2) {
        true => counter(random),
        false => no_counter(random),
    }
}

/// The word of a tenant's counter.
pub fn word_of(tenant: u32) -> usize {
    COUNTERS + tenant as usize
}

/// Gives a table other counters in range, half of the time.
pub fn lend(random: &mut Random, table: &mut [u32]) {
    if random.one_in(2) {
        return;
    }
    for tenant in 0..TENANTS {
        table[word_of(tenant)] = counter(random);
    }
}

/// The counters of a table that has all its words.
pub fn of(table: &[u32]) -> Option<Counters> {
    table.get(COUNTERS..)?.first_chunk().copied()
}

/// A lookup as its caller sees it.
#[derive(Clone, Copy, Debug)]
pub struct Told {
    pub tenant: u32,
    pub refusal: u32,
    pub opened: u32,
}

impl Told {
    fn new(tenant: u32, reply: &[u32]) -> Self {
        Told {
            tenant,
            refusal: reply[REFUSAL],
            opened: reply[OPENED],
        }
    }
}

/// The lookups of a list, with what was replied to them.
pub fn told_by_list(list: &[Call], replies: &[u32]) -> Vec<Told> {
    let replies = replies.chunks_exact(REPLY_WORDS);
    let told = list.iter().zip(replies).filter_map(|(call, reply)| {
        let Call::Lookup { tenant, .. } = *call else {
            return None;
        };
        Some(Told::new(tenant, reply))
    });
    told.collect()
}

/// The ids of a tenant's batch, with what was replied to them.
pub fn told_by_batch(tenant: u32, replies: &[u32]) -> Vec<Told> {
    let replies = replies.chunks_exact(REPLY_WORDS);
    replies.map(|reply| Told::new(tenant, reply)).collect()
}

/// The counters that lookups leave, from those before and what was replied alone: to each is added
/// the sum of the opened counts that its tenant was told, up to the stop.
pub fn after(before: Counters, told: &[Told]) -> Counters {
    let mut sums = [0; TENANTS as usize];
    for lookup in told.iter().filter(|lookup| lookup.opened > 0) {
        sums[lookup.tenant as usize] += u64::from(lookup.opened);
    }
    let mut counters = before;
    for (counter, sum) in counters.iter_mut().zip(sums).filter(|(_, sum)| *sum > 0) {
        *counter = (u64::from(*counter) + sum).min(u64::from(MAX_COUNTER)) as u32;
    }
    counters
}
