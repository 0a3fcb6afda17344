//! Several reasons to refuse a call at once: the first in the order of the tests is given.

use crate::archive::{tenant_of, Table, BLANK, CONTENT_RANGE, TENANTS};
use crate::batch_differ::Room;
use crate::calls::{Call, CALL_WORDS, REFUSAL, REPLY_WORDS};
use crate::counters;
use crate::differ::{compare_words, Difference, Lent, Tally, UNREAD, UNSTORED};
use crate::lists::no_tenant;
use crate::random::Random;
use crate::salts;
use ticket_archive::functions as proved;

/// What the three calls of a tenant are made of.
struct Asked {
    tenant: u32,
    id: u32,
    value: u32,
}

impl Asked {
    /// An id by its own tenant, and a value.
    fn random(random: &mut Random) -> Self {
        let id = random.below(CONTENT_RANGE);
        Asked {
            tenant: tenant_of(id),
            id,
            value: random.below(CONTENT_RANGE),
        }
    }

    /// The same id by another tenant.
    fn give_away(&mut self, random: &mut Random) {
        self.tenant = (self.tenant + random.between(1, TENANTS - 1)) % TENANTS;
    }

    /// One argument or more out of range.
    fn move_out(&mut self, random: &mut Random) {
        let which = random.between(1, 7);
        if which & 1 != 0 {
            self.tenant = no_tenant(random);
        }
        if which & 2 != 0 {
            self.id |= random.between(1, 3) << 30;
        }
        if which & 4 != 0 {
            self.value |= random.between(1, 3) << 30;
        }
    }

    fn calls(&self) -> [Call; 3] {
        let Asked { tenant, id, value } = *self;
        [
            Call::Write { tenant, id, value },
            Call::Delete { tenant, id },
            Call::Lookup { tenant, id },
        ]
    }

    fn is_outside(&self, call: Call) -> bool {
        let value = matches!(call, Call::Write { .. }) && self.value >= CONTENT_RANGE;
        self.tenant >= TENANTS || self.id >= CONTENT_RANGE || value
    }
}

/// No server, one or two, and each other reason or not: the number that comes first is told here
/// and not by the Rust implementation, which is compared as well.
pub fn in_order(random: &mut Random, tally: &mut Tally) -> Result<(), Difference> {
    let capacity = random.between(1, 4);
    let count = random.below(3);
    let mut medium = vec![BLANK; (3 * capacity * count) as usize];
    let mut table = Table::start(capacity, salts::salt(random)).expect("in range");
    for _ in 0..count {
        table.add_server(&medium, capacity).expect("blank");
    }
    if random.one_in(2) {
        table.counters = table.counters.map(|_| counters::counter(random));
    }
    let is_unsound = random.one_in(4);
    if is_unsound {
        make_unsound(random, &mut table);
    }
    let is_short = random.one_in(2) && medium.pop().is_some();
    let mut asked = Asked::random(random);
    let is_others = random.one_in(2);
    if is_others {
        asked.give_away(random);
    }
    if random.one_in(2) {
        asked.move_out(random);
    }
    let mut lent = Lent::new(&table, medium);
    for call in asked.calls() {
        let rows = [
            (is_unsound, 1),
            (asked.is_outside(call), 2),
            (is_others, 11),
            (count == 0, 3),
            (is_short, 5),
        ];
        if let Some((_, number)) = rows.into_iter().find(|row| row.0) {
            refused_by(&lent, call, number)?;
            if let Call::Lookup { tenant, id } = call {
                id_refused_by(&lent, tenant, id, number)?;
            }
        }
    }
    lent.run(&asked.calls(), tally)
}

/// Puts the capacity, the salt or a counter out of range.
fn make_unsound(random: &mut Random, table: &mut Table) {
    match random.below(3) {
        0 => table.capacity = random.pick(&[0, 65_537, u32::MAX]),
        1 => table.salt = salts::no_salt(random),
        _ => {
            let tenant = random.below(TENANTS) as usize;
            table.counters[tenant] = counters::no_counter(random);
        }
    }
}

/// The proved call gives this number and zeros, and changes nothing.
fn refused_by(lent: &Lent, call: Call, number: u32) -> Result<(), Difference> {
    let mut expected = [0; REPLY_WORDS];
    expected[REFUSAL] = number;
    let (mut table, mut medium) = (lent.table.clone(), lent.medium.clone());
    let words: [u32; CALL_WORDS] = call.words(UNREAD);
    let mut reply = [UNSTORED; REPLY_WORDS];
    proved::call(&mut table, &mut medium, &words, &mut reply);
    compare_words("the first reason in the place of Rust", &reply, &expected)
        .and_then(|()| compare_words("table", &table, &lent.table))
        .and_then(|()| compare_words("medium", &medium, &lent.medium))
        .map_err(|text| format!("{call:?}: {text}"))
}

/// The proved batch of this id gives it the number and zeros, opens no server, and changes nothing.
fn id_refused_by(lent: &Lent, tenant: u32, id: u32, number: u32) -> Result<(), Difference> {
    let mut expected = [0; REPLY_WORDS + 2];
    expected[REFUSAL] = number;
    let mut told = [UNSTORED; REPLY_WORDS + 2];
    let (reply, rest) = told.split_at_mut(REPLY_WORDS);
    let (order, mounts) = rest.split_at_mut(1);
    let mut table = lent.table.clone();
    proved::lookup_batch(
        &mut table,
        &lent.medium,
        tenant,
        &[id],
        reply,
        order,
        mounts,
    );
    compare_words("reply, order and mounts", &told, &expected)
        .and_then(|()| compare_words("table", &table, &lent.table))
        .map_err(|text| format!("batch of {id} by {tenant}: {text}"))
}

/// Each call is refused by 1 and changes nothing, and so is each id of a batch. This is told here
/// and not by the Rust implementation.
pub fn all_refused(lent: &mut Lent, calls: &[Call], tally: &mut Tally) -> Result<(), Difference> {
    let mut ids = Vec::new();
    for &call in calls {
        match call {
            Call::None { .. } => continue,
            Call::Lookup { tenant, id } => {
                id_refused_by(lent, tenant, id, 1)?;
                ids.push(id);
            }
            _ => {}
        }
        refused_by(lent, call, 1)?;
    }
    lent.run_batch(0, &ids, Room::of(ids.len()), tally)
}
