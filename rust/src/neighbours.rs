//! Two histories on blank media of different lengths, with the same servers added, weights set and
//! calls of one tenant, and with other calls of its neighbours in between. Where each of those
//! servers, weights and writes is accepted in both histories or in neither, the tenant is told the
//! same, and its counter is the same. Both histories are run on the proved code.

use crate::archive::{BLANK, TENANTS};
use crate::batch::MAX_IDS;
use crate::calls::{encode, Call, REFUSAL, REPLY_WORDS, TABLE_WORDS};
use crate::counters::word_of;
use crate::differ::{Difference, Tally, UNREAD, UNSTORED};
use crate::lists::{moved, Shape};
use crate::random::Random;
use ticket_archive::functions as proved;

/// One history: its calls, what was replied, and what it left.
struct History {
    list: Vec<Call>,
    /// The places of the calls that both histories have.
    common: Vec<usize>,
    replies: Vec<u32>,
    table: Vec<u32>,
    medium: Vec<u32>,
}

impl History {
    /// Puts neighbours' calls before, between and after the common ones, `often` of 4 times one
    /// more, and runs all of them on a fresh table.
    fn run(
        random: &mut Random,
        neighbours: &Neighbours,
        common: &[Call],
        often: u32,
        medium_len: usize,
    ) -> Self {
        let mut list = Vec::new();
        let mut places = Vec::new();
        for &call in common {
            while random.below(4) < often {
                list.push(neighbours.call(random));
            }
            places.push(list.len());
            list.push(call);
        }
        while random.below(4) < often {
            list.push(neighbours.call(random));
        }
        let mut table = vec![0; TABLE_WORDS];
        let mut medium = vec![BLANK; medium_len];
        let mut replies = vec![UNSTORED; REPLY_WORDS * list.len()];
        let [capacity, salt] = neighbours.shape.start();
        proved::start(capacity, salt, &mut table);
        let calls = encode(&list, UNREAD);
        let ran = proved::resume(&mut table, &calls, &mut medium, &mut replies);
        assert_eq!(ran, list.len());
        History {
            list,
            common: places,
            replies,
            table,
            medium,
        }
    }

    /// The reply to a common call, by its place among them.
    fn reply(&self, at: usize) -> &[u32] {
        let first = REPLY_WORDS * self.common[at];
        &self.replies[first..first + REPLY_WORDS]
    }

    /// The number, replies, order and mounts of a batch on what the history left, and the tenant's
    /// counter before and after it.
    fn batch(&self, tenant: u32, ids: &[u32]) -> (u32, Vec<u32>, Vec<u32>, [u32; 3]) {
        let mut replies = vec![UNSTORED; REPLY_WORDS * ids.len()];
        let mut order = vec![UNSTORED; ids.len()];
        let mut mounts = [UNSTORED];
        let mut table = self.table.clone();
        let number = proved::lookup_batch(
            &mut table,
            &self.medium,
            tenant,
            ids,
            &mut replies,
            &mut order,
            &mut mounts,
        );
        let [before, after] = [&self.table, &table].map(|table| table[word_of(tenant)]);
        (number, replies, order, [mounts[0], before, after])
    }
}

/// Those who share an archive with one tenant, and what all of them name.
struct Neighbours {
    shape: Shape,
    tenant: u32,
}

impl Neighbours {
    /// Half of the ids are the tenant's; the others are the same but for the bits that say whose.
    fn random(random: &mut Random) -> Self {
        let mut shape = match random.below(3) {
            0 => Shape::random(random, 8, 6),
            _ => Shape::random(random, 64, 6),
        };
        let tenant = random.below(TENANTS);
        let own = shape.ids.iter().map(|&id| moved(id, tenant));
        shape.ids = own.chain(shape.ids.iter().copied()).collect();
        Neighbours { shape, tenant }
    }

    /// A server, a weight, or a call of the tenant: mostly of an id of its own.
    fn common(&self, random: &mut Random) -> Call {
        let tenant = self.tenant;
        let own = |random: &mut Random, id: u32| match random.one_in(8) {
            true => id,
            false => moved(id, tenant),
        };
        match self.shape.call(random) {
            Call::Write { id, value, .. } => Call::Write {
                tenant,
                id: own(random, id),
                value,
            },
            Call::Delete { id, .. } => Call::Delete {
                tenant,
                id: own(random, id),
            },
            Call::Lookup { id, .. } => Call::Lookup {
                tenant,
                id: own(random, id),
            },
            other => other,
        }
    }

    /// A call of another than the tenant: mostly of an id of its own, or one that is refused.
    fn call(&self, random: &mut Random) -> Call {
        loop {
            let call = self.shape.call(random);
            match call {
                Call::Write { tenant, .. }
                | Call::Delete { tenant, .. }
                | Call::Lookup { tenant, .. }
                    if tenant != self.tenant =>
                {
                    return call;
                }
                Call::None { .. } => return call,
                _ => {}
            }
        }
    }

    /// A list of ids for a batch, of any tenant.
    fn ids(&self, random: &mut Random) -> Vec<u32> {
        let length = match random.below(8) {
            0 => MAX_IDS as u32 + 1,
            _ => random.below(40),
        };
        (0..length).map(|_| self.shape.id(random)).collect()
    }
}

/// Whether a call is one that must be accepted in both histories or in neither.
fn is_bound(call: Call) -> bool {
    matches!(
        call,
        Call::AddServer { .. } | Call::Reweight { .. } | Call::Write { .. }
    )
}

/// Two media, of which one is now and then too short for the servers.
fn two_lengths(random: &mut Random, shape: &Shape) -> [usize; 2] {
    let one = shape.medium_len(random);
    let other = one + random.between(1, 3 * shape.capacity) as usize;
    match random.one_in(2) {
        true => [one, other],
        false => [other, one],
    }
}

/// A pair of histories. What comes before the first call that one of them accepts and the other
/// refuses is a pair of histories too, and compared in any case. So are the numbers of refusals:
/// neighbours and lengths have a bearing on one number of a call at most, 5 of add_server, 9 of
/// reweight and 6 of a write.
pub fn pair(random: &mut Random, tally: &mut Tally) -> Result<(), Difference> {
    let neighbours = Neighbours::random(random);
    let shape = &neighbours.shape;
    let servers = random.below(shape.servers + 1);
    let added = (0..servers).map(|_| Call::AddServer {
        weight: shape.weight(random),
    });
    let mut common: Vec<Call> = added.collect();
    let length = random.between(1, 60);
    common.extend((0..length).map(|_| neighbours.common(random)));
    let [one, other] = two_lengths(random, shape);
    let often = random.below(3);
    let one = History::run(random, &neighbours, &common, often, one);
    let often = random.between(1, 3);
    let other = History::run(random, &neighbours, &common, often, other);
    let tenant = neighbours.tenant;
    let described = |text: String| {
        let lists = [&one, &other].map(|history| (history.medium.len(), &history.list));
        let [capacity, salt] = shape.start();
        format!("tenant {tenant}, capacity {capacity}, salt {salt}: {text}\nmedia and lists {lists:#?}\n")
    };
    for (at, &call) in common.iter().enumerate() {
        let [one, other] = [one.reply(at), other.reply(at)];
        if is_bound(call) && (one[REFUSAL] == 0) != (other[REFUSAL] == 0) {
            tally.parted += 1;
            return Ok(());
        }
        tally.neighbours_calls += 1;
        if one != other {
            return Err(described(format!("{call:?}: {one:?} and {other:?}")));
        }
    }
    tally.alike += 1;
    let ids = neighbours.ids(random);
    let [one_batch, other_batch] = [one.batch(tenant, &ids), other.batch(tenant, &ids)];
    if one_batch.0 == 0 {
        tally.neighbours_ids += ids.len() as u64;
    }
    if one_batch != other_batch {
        let text = format!("batch of {ids:?}: {one_batch:?} and {other_batch:?}");
        return Err(described(text));
    }
    Ok(())
}
