//! The known draws, the edges and the example of document 01 and the tenants, salts, counters, images
//! and crashes of document 02, on the Rust implementation and the ledger alone.

use crate::archive::{tenant_of, Refusal, Table, BLANK};
use crate::calls::{Call, Reply};
use crate::image::{decode, encode};
use crate::ledger::{Ledger, Left};
use crate::placement::{draw, picks, round, step, write_server};

#[test]
fn known_draws() {
    assert_eq!(step(0), 2_654_435_769);
    assert_eq!(step(2), 3_668_340_011);
    assert_eq!(round(1), 270_369);
    assert_eq!(round(round(1)), 67_634_689);
    assert_eq!(round(round(round(1))), 2_647_435_461);
    assert_eq!(draw(0, 626_627_286, 2), 2_647_435_461);
    assert_eq!(draw(0, 626_627_285, 2), 2_647_435_461);
}

/// Salts up to the greatest under which an id has the draws of the known one.
const SALTS: [u32; 5] = [0, 1, 12_345, 626_627_285, 626_627_286];

#[test]
fn salted_draws() {
    for salt in SALTS.into_iter().chain([1_073_741_823]) {
        for id in [0, 1, 1001, 626_627_286, 1_073_741_823] {
            for server in 0..256 {
                assert_eq!(draw(salt, id, server), draw(0, id + salt, server));
            }
        }
        let seed_0 = step(2).wrapping_add(salt).wrapping_neg();
        assert_eq!(draw(salt, seed_0, 2), 2_647_435_461);
        assert_eq!(draw(salt, seed_0.wrapping_add(1), 2), 2_647_435_461);
    }
    assert_eq!(draw(12_345, 626_627_285 - 12_345, 2), 2_647_435_461);
    assert_eq!(draw(626_627_285, 0, 2), 2_647_435_461);
}

#[test]
fn known_picks() {
    let cases = [
        ([1, 0, 2], 2),
        ([2, 0, 2], 0),
        ([0, 0, 5], 2),
        ([0, 0, 0], 0),
    ];
    for (weights, server) in cases {
        for salt in SALTS {
            assert_eq!(write_server(&weights, salt, 626_627_286 - salt), server);
        }
        assert_eq!(picks(&weights, 1 << 30, &[1], &mut [9]), 0);
    }
}

/// The id of the example; under a salt the one that has the same draws.
fn known_id(salt: u32) -> u32 {
    626_627_286 - salt
}

/// The lines of the example as calls and the numbers they print.
fn example(salt: u32) -> [(Call, Reply); 10] {
    let id = known_id(salt);
    let tenant = tenant_of(id);
    let write = |value| Call::Write { tenant, id, value };
    let lookup = Call::Lookup { tenant, id };
    let reply = |refusal, server, value, opened, invalidated| Reply {
        refusal,
        server,
        value,
        opened,
        invalidated,
    };
    let reweight = Call::Reweight {
        server: 0,
        weight: 2,
    };
    [
        (Call::AddServer { weight: 1 }, reply(0, 0, 0, 0, 0)),
        (Call::AddServer { weight: 0 }, reply(0, 1, 0, 0, 0)),
        (Call::AddServer { weight: 2 }, reply(0, 2, 0, 0, 0)),
        (write(500), reply(0, 2, 0, 0, 0)),
        (lookup, reply(0, 0, 500, 1, 0)),
        (reweight, reply(0, 0, 0, 0, 0)),
        (write(740), reply(0, 0, 0, 0, 1)),
        (lookup, reply(0, 0, 740, 2, 0)),
        (Call::Delete { tenant, id }, reply(0, 0, 0, 0, 1)),
        (lookup, reply(8, 0, 0, 2, 0)),
    ]
}

#[test]
fn example_on_the_archive() {
    for salt in SALTS {
        let mut table = Table::start(4, salt).expect("in range");
        let mut medium = vec![BLANK; 3_072];
        for (call, reply) in example(salt) {
            assert_eq!(table.run(&mut medium, call), reply, "{call:?}");
        }
        let id = known_id(salt);
        assert_eq!(medium[24..27], [id, 1_073_742_324, 2_147_483_649]);
        let mut counters = [0; 8];
        counters[tenant_of(id) as usize] = 1 + 2 + 2;
        assert_eq!(table.counters, counters);
    }
}

#[test]
fn example_on_the_ledger() {
    for salt in SALTS {
        let mut ledger = Ledger::new(4, salt, 3_072);
        for (call, reply) in example(salt) {
            let expected = Reply {
                invalidated: 0,
                ..reply
            };
            assert_eq!(ledger.enter(call), expected, "{call:?}");
        }
    }
}

#[test]
fn batch() {
    let id = known_id(0);
    let mut table = Table::start(4, 0).expect("in range");
    let mut medium = vec![BLANK; 36];
    for (call, _) in example(0).into_iter().take(4) {
        table.run(&mut medium, call);
    }
    assert_eq!(table.opens(&medium, 4, id), [2]);
    assert!(table.opens(&medium, 5, id).is_empty());
    let answer = table.lookup_batch(&medium, 4, &[id, 1 << 30, id, 1]);
    let batch = answer.expect("four ids");
    assert_eq!(batch.order, [1, 3, 0, 2]);
    assert_eq!(batch.mounts, 1);
    assert_eq!(table.counters, [0, 0, 0, 0, 2, 0, 0, 0]);
    assert_eq!(batch.replies[1], Reply::refused(Refusal::OutOfRange));
    assert_eq!((batch.replies[2].value, batch.replies[2].opened), (500, 1));
    assert_eq!(batch.replies[3], Reply::refused(Refusal::OtherTenant));
    let outside = table.lookup_batch(&medium, 8, &[id, 1 << 30]);
    let outside = outside.expect("two ids");
    assert_eq!(outside.replies, [Reply::refused(Refusal::OutOfRange); 2]);
    assert_eq!((outside.order, outside.mounts), (vec![0, 1], 0));
    let refusal = |table: &mut Table| table.lookup_batch(&medium, 4, &[id; 257]).err();
    assert_eq!(refusal(&mut table), Some(Refusal::OutOfRange));
    assert_eq!(refusal(&mut Table::ZERO.clone()), Some(Refusal::Unsound));
    assert_eq!(table.counters, [0, 0, 0, 0, 2, 0, 0, 0]);
}

#[test]
fn tenants() {
    let known = [
        (0, 0),
        (134_217_727, 0),
        (134_217_728, 1),
        (626_627_286, 4),
        (1_073_741_823, 7),
    ];
    for (id, tenant) in known {
        assert_eq!(tenant_of(id), tenant);
        let mut ledger = Ledger::new(1, 0, 3);
        let mut table = Table::start(1, 0).expect("in range");
        let mut medium = vec![BLANK; 3];
        for caller in 0..9 {
            let refusal = match caller {
                8 => 2,
                _ if caller != tenant => 11,
                _ => 3,
            };
            let lookup = Call::Lookup { tenant: caller, id };
            assert_eq!(table.run(&mut medium, lookup).refusal, refusal);
            assert_eq!(ledger.enter(lookup).refusal, refusal);
        }
    }
}

#[test]
fn salts() {
    for salt in [1_073_741_824, u32::MAX] {
        assert_eq!(Table::start(1, salt), Err(Refusal::OutOfRange));
        let mut table = Table::start(1, 1_073_741_823).expect("in range");
        table.salt = salt;
        assert_eq!(table.add_server(&[BLANK; 3], 1), Err(Refusal::Unsound));
    }
}

#[test]
fn counters() {
    let id = known_id(0);
    let mut table = Table::start(1, 0).expect("in range");
    let mut medium = vec![BLANK; 3];
    table.add_server(&medium, 1).expect("blank");
    let lookups = [
        Call::lookup(id),
        Call::lookup(0),
        Call::Lookup { tenant: 4, id: 0 },
    ];
    let mut run = |table: &mut Table| lookups.map(|call| table.run(&mut medium, call).refusal);
    assert_eq!(run(&mut table), [8, 8, 11]);
    assert_eq!(table.counters, [1, 0, 0, 0, 1, 0, 0, 0]);
    table.counters[4] = 1_073_741_822;
    for _ in 0..2 {
        assert_eq!(run(&mut table), [8, 8, 11]);
        assert_eq!(table.counters[4], 1_073_741_823);
    }
    for tenant in 0..8 {
        for above in [1_073_741_824, u32::MAX] {
            let mut unsound = table.clone();
            unsound.counters[tenant] = above;
            let before = unsound.clone();
            assert_eq!(run(&mut unsound), [1, 1, 1]);
            assert_eq!(unsound, before);
        }
    }
}

/// The image of the table that the example leaves: weights 2, 0, 2, an entry used on servers 0 and 2,
/// whose ReadP is still that of its first weights, and five servers opened for tenant 4.
#[rustfmt::skip]
const EXAMPLE_IMAGE: [u32; 22] = [
    4, 1_073_741_824,
    1_073_741_826, 2_147_483_649, 1, 1_073_741_825,
    1_073_741_824, 2_147_483_648, 0, 1_073_741_825,
    1_073_741_826, 2_147_483_649, 2, 1_073_741_827,
    2_147_483_648, 2_147_483_648, 2_147_483_648, 2_147_483_648,
    2_147_483_653, 2_147_483_648, 2_147_483_648, 2_147_483_648,
];

#[test]
fn image_of_the_example() {
    let mut table = Table::start(4, 0).expect("in range");
    let mut medium = vec![BLANK; 36];
    for (call, reply) in example(0) {
        assert_eq!(table.run(&mut medium, call), reply);
    }
    let words = table.words();
    assert_eq!(encode(&words), Ok(EXAMPLE_IMAGE.to_vec()));
    assert_eq!(decode(&EXAMPLE_IMAGE), Ok(words));
    let mut other = table.clone();
    other.weights[3] = u32::MAX;
    assert_eq!(encode(&other.words()), Ok(EXAMPLE_IMAGE.to_vec()));
    other.count = 4;
    assert_eq!(encode(&other.words()), Err(Refusal::Unsound));
}

#[test]
fn no_images() {
    for at in 0..EXAMPLE_IMAGE.len() {
        for tag in 1..4 {
            let mut words = EXAMPLE_IMAGE;
            words[at] ^= tag << 30;
            assert_eq!(decode(&words), Err(Refusal::BadImage));
        }
        assert_eq!(decode(&EXAMPLE_IMAGE[..at]), Err(Refusal::BadImage));
    }
    // Server 0 without its words, a weight above the capacity, and a ReadP below WriteP.
    let without = [&EXAMPLE_IMAGE[..2], &EXAMPLE_IMAGE[6..]].concat();
    assert_eq!(decode(&without), Err(Refusal::BadImage));
    for (at, content) in [(2, 5), (4, 0), (12, 1)] {
        let mut words = EXAMPLE_IMAGE;
        words[at] = words[at] >> 30 << 30 | content;
        assert_eq!(decode(&words), Err(Refusal::BadImage));
    }
}

/// The last ten words, ReadP of server 2 and the counters, are an image too: a capacity and a salt,
/// and no server. No others at the end are.
#[test]
fn image_at_the_end() {
    for at in (1..EXAMPLE_IMAGE.len()).filter(|at| *at != 12) {
        assert_eq!(decode(&EXAMPLE_IMAGE[at..]), Err(Refusal::BadImage));
    }
    let other = Table {
        counters: [0, 0, 0, 0, 5, 0, 0, 0],
        ..Table::start(2, 3).expect("in range")
    };
    assert_eq!(decode(&EXAMPLE_IMAGE[12..]), Ok(other.words()));
}

/// The example up to its second write, which has three burns: value, id and the mark of the first write.
fn before_the_second_write() -> (Table, Vec<u32>) {
    let mut table = Table::start(4, 0).expect("in range");
    let mut medium = vec![BLANK; 36];
    for (call, reply) in &example(0)[..6] {
        assert_eq!(table.run(&mut medium, *call), *reply);
    }
    (table, medium)
}

#[test]
fn burns_of_the_example() {
    let id = known_id(0);
    let (table, medium) = before_the_second_write();
    let burns = [(1, 1_073_742_564), (0, id), (26, 2_147_483_649)];
    for n in 0..=4 {
        let mut expected = medium.clone();
        for &(at, word) in burns.iter().take(n) {
            expected[at] = word;
        }
        let mut left = table.clone();
        let mut words = medium.clone();
        let reply = left.run_some(&mut words, Call::write(id, 740), n as u32);
        assert_eq!((reply.refusal, reply.server, reply.invalidated), (0, 0, 1));
        assert_eq!(words, expected, "with {n} burns");
        assert_eq!(left == table, n < 3);
        left.recover(&words).expect("sound");
        assert_eq!(left.used[..3], [u32::from(n > 0), 0, 1]);
        let value = if n < 3 { 500 } else { 740 };
        let met = if n < 3 { (2, 0) } else { (0, 0) };
        assert_eq!(left.meets(&words, id), Some(met));
        assert_eq!(left.run(&mut words, Call::lookup(id)).value, value);
    }
}

#[test]
fn crashes_of_the_example_on_the_ledger() {
    let id = known_id(0);
    let outcomes = [(false, false, 4), (true, false, 3), (true, true, 3)];
    for (touched, shows, writes_left) in outcomes {
        let mut ledger = Ledger::new(4, 0, 36);
        for (call, _) in &example(0)[..6] {
            ledger.enter(*call);
        }
        let write = Call::write(id, 740);
        assert_eq!(ledger.target(write), Some((0, 0)));
        ledger.crash(write, Left { touched, shows });
        let value = if shows { 740 } else { 500 };
        assert_eq!(ledger.enter(Call::lookup(id)).value, value);
        assert_eq!(ledger.writes(), 2);
        for _ in 0..writes_left {
            assert_eq!(ledger.enter(write).refusal, 0);
        }
        assert_eq!(ledger.enter(write).refusal, 6);
    }
}

#[test]
fn edges() {
    assert_eq!(Table::start(0, 0), Err(Refusal::OutOfRange));
    assert_eq!(Table::start(65_537, 0), Err(Refusal::OutOfRange));
    let mut table = Table::start(1, 0).expect("in range");
    let mut medium = vec![BLANK; 3 * 257];
    for server in 0..256 {
        assert_eq!(table.add_server(&medium, 0), Ok(server));
    }
    assert_eq!(table.add_server(&medium, 0), Err(Refusal::TooManyServers));
    let write = |id| Call::write(id, 0);
    assert_eq!(table.run(&mut medium, write(1_073_741_824)).refusal, 2);
    assert_eq!(table.run(&mut medium, write(1_073_741_823)).refusal, 0);
    assert_eq!(table.run(&mut medium, write(1_073_741_823)).refusal, 6);
}
