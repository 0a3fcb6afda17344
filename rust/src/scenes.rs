//! What is measured: inputs that two sides run alike.

use crate::archive::{Table, BLANK, CONTENT_RANGE};
use crate::batch::MAX_IDS;
use crate::blocks;
use crate::calls::Call;
use crate::lists::moved;
use crate::placement::{self, write_server, MAX_CAPACITY};
use crate::random::Random;
use crate::scene::{Picker, Scene};

/// Scenes whose sides are the same two.
pub struct Group {
    pub sides: [&'static str; 2],
    pub scenes: &'static [Entry],
}

pub const GROUPS: [Group; 4] = [
    Group {
        sides: ["proved", "Rust"],
        scenes: &AGAINST_RUST,
    },
    Group {
        sides: ["proved", "blocks"],
        scenes: &AGAINST_BLOCKS,
    },
    Group {
        sides: ["call", "list"],
        scenes: &CALLS,
    },
    Group {
        sides: ["batch", "calls"],
        scenes: &BATCHES,
    },
];

/// Name, what it measures, and how it is made.
pub type Entry = (&'static str, &'static str, fn() -> Scene);

const AGAINST_RUST: [Entry; 24] = [
    ("pick-16", "write decision over 16 servers", || {
        picks(16, placement::picks)
    }),
    ("pick-256", "write decision over 256 servers", || {
        picks(256, placement::picks)
    }),
    ("hit-1", "lookup that finds, 1 server", || {
        lookups(1, ENTRIES, true)
    }),
    ("hit-16", "lookup that finds, 16 servers", || {
        lookups(16, ENTRIES, true)
    }),
    ("hit-256", "lookup that finds, 256 servers", || {
        lookups(256, ENTRIES, true)
    }),
    ("miss-1", "lookup that finds none, 1 server", || {
        lookups(1, ENTRIES, false)
    }),
    ("miss-16", "lookup that finds none, 16 servers", || {
        lookups(16, ENTRIES, false)
    }),
    ("miss-256", "lookup that finds none, 256 servers", || {
        lookups(256, ENTRIES, false)
    }),
    ("scan-1", "the same, 1 server of 65,536", || {
        lookups(1, MAX_CAPACITY, false)
    }),
    ("scan-16", "the same, 16 servers of 65,536", || {
        lookups(16, MAX_CAPACITY, false)
    }),
    ("write-1", "write that invalidates 4, 1 server", || {
        writes(1)
    }),
    ("write-16", "write that invalidates 4, 16 servers", || {
        writes(16)
    }),
    (
        "write-few",
        "write of a new id, 4 servers of 64",
        few_writes,
    ),
    ("delete-1", "delete that invalidates 4, 1 server", || {
        deletes(1)
    }),
    ("delete-16", "delete that invalidates 4, 16 servers", || {
        deletes(16)
    }),
    ("delete-few", "delete, 4 servers of 64", few_deletes),
    ("add-server", "add_server, 65,536 entries", add_server),
    ("mixed", "100,000 calls, 16 servers of 2,048", || {
        mixed(16, 2_048)
    }),
    ("mixed-256", "100,000 calls, 256 servers of 128", || {
        mixed(256, 128)
    }),
    ("mixed-4", "100,000 calls, 4 servers of 64", || mixed(4, 64)),
    ("encode-1", "image written, 1 server", || {
        Scene::encode(&to_be_kept(1), IMAGES)
    }),
    ("encode-256", "image written, 256 servers", || {
        Scene::encode(&to_be_kept(256), IMAGES)
    }),
    ("decode-1", "image read, 1 server", || {
        Scene::decode(&to_be_kept(1), IMAGES)
    }),
    ("decode-256", "image read, 256 servers", || {
        Scene::decode(&to_be_kept(256), IMAGES)
    }),
];

/// Picks, against Rust that works limits out and compares blocks of servers.
const AGAINST_BLOCKS: [Entry; 2] = [
    ("blocks-16", "write decision over 16 servers", || {
        picks(16, blocks::picks)
    }),
    ("blocks-256", "write decision over 256 servers", || {
        picks(256, blocks::picks)
    }),
];

/// Calls lent one at a time, against the same in one list.
const CALLS: [Entry; 13] = [
    ("call-few-1", "lookup, 1 server of 32", || found(1, FEW)),
    ("call-few-16", "lookup, 16 servers of 32", || found(16, FEW)),
    ("call-few-256", "lookup, 256 servers of 32", || {
        found(256, FEW)
    }),
    ("call-hit-1", "lookup, 1 server of 4,096", || {
        found(1, ENTRIES)
    }),
    ("call-hit-16", "lookup, 16 servers of 4,096", || {
        found(16, ENTRIES)
    }),
    ("call-hit-256", "lookup, 256 servers of 4,096", || {
        found(256, ENTRIES)
    }),
    ("call-new-1", "write of a new id, 1 server", || {
        new_writes(1)
    }),
    ("call-new-16", "write of a new id, 16 servers", || {
        new_writes(16)
    }),
    ("call-new-256", "write of a new id, 256 servers", || {
        new_writes(256)
    }),
    ("call-write-1", "write that invalidates 4, 1 server", || {
        replacing(1)
    }),
    (
        "call-write-16",
        "write that invalidates 4, 16 servers",
        || replacing(16),
    ),
    (
        "call-write-256",
        "write that invalidates 4, 256 servers",
        || replacing(256),
    ),
    ("call-weight-16", "reweight, 16 servers", || reweights(16)),
];

/// Batches, of 256 ids where nothing else is said, against lookups lent one at a time.
const BATCHES: [Entry; 13] = [
    ("batch-few-1", "batch, 1 server of 32", || {
        batches(1, FEW, MAX_IDS)
    }),
    ("batch-few-16", "batch, 16 servers of 32", || {
        batches(16, FEW, MAX_IDS)
    }),
    ("batch-few-256", "batch, 256 servers of 32", || {
        batches(256, FEW, MAX_IDS)
    }),
    ("batch-hit-1", "batch, 1 server of 4,096", || {
        batches(1, ENTRIES, MAX_IDS)
    }),
    ("batch-hit-16", "batch, 16 servers of 4,096", || {
        batches(16, ENTRIES, MAX_IDS)
    }),
    ("batch-hit-64", "batch, 64 servers of 4,096", || {
        batches(64, ENTRIES, MAX_IDS)
    }),
    ("batch-hit-256", "batch, 256 servers of 4,096", || {
        batches(256, ENTRIES, MAX_IDS)
    }),
    ("batch-one-1", "batch of 1, 1 server of 32", || {
        batches(1, FEW, 1)
    }),
    ("batch-one-16", "batch of 1, 16 servers of 32", || {
        batches(16, FEW, 1)
    }),
    ("batch-one-256", "batch of 1, 256 servers of 32", || {
        batches(256, FEW, 1)
    }),
    ("batch-four-1", "batch of 4, 1 server of 32", || {
        batches(1, FEW, 4)
    }),
    ("batch-four-16", "batch of 4, 16 servers of 32", || {
        batches(16, FEW, 4)
    }),
    ("batch-four-256", "batch of 4, 256 servers of 32", || {
        batches(256, FEW, 4)
    }),
];

/// The salt of every scene: 0, under which ids go where they went before there were salts.
const SALT: u32 = 0;

fn picks(servers: usize, rust: Picker) -> Scene {
    let mut random = Random::new(1);
    let weights = (0..servers)
        .map(|_| random.between(1, MAX_CAPACITY))
        .collect();
    let ids = (0..20_000).map(|_| random.below(CONTENT_RANGE)).collect();
    Scene::picks(weights, SALT, ids, rust)
}

const ENTRIES: u32 = 4_096;

/// So few entries that a lookup is soon at its end.
const FEW: u32 = 32;

/// Servers of equal weight whose first `used` entries hold ids that no call names.
fn filled(random: &mut Random, servers: usize, entries: u32, used: u32) -> (Table, Vec<u32>) {
    let words = 3 * entries as usize;
    let mut medium = vec![BLANK; words * servers];
    let mut table = Table::start(entries, SALT).expect("in range");
    for server in 0..servers {
        table.add_server(&medium, entries).expect("blank");
        table.used[server] = used;
    }
    for server in medium.chunks_exact_mut(words) {
        for entry in server.chunks_exact_mut(3).take(used as usize) {
            let id = 4 * random.below(CONTENT_RANGE / 4);
            entry.copy_from_slice(&[id, 1 << 30 | random.below(CONTENT_RANGE), BLANK]);
        }
    }
    (table, medium)
}

/// An id of its own class, so that neither a filling nor another class has it.
fn fresh_id(random: &mut Random, class: u32) -> u32 {
    4 * random.below(CONTENT_RANGE / 4) + class
}

/// Puts an id in place of a filling of its write server.
fn place(random: &mut Random, table: &Table, medium: &mut [u32], id: u32) {
    let server = write_server(&table.weights[..table.count as usize], table.salt, id);
    loop {
        let entry = random.below(table.used[server]);
        let at = 3 * (table.capacity as usize * server + entry as usize);
        if medium[at].is_multiple_of(4) {
            medium[at] = id;
            return;
        }
    }
}

/// Lookups on full servers; the ids that are found stand anywhere on their write server.
fn lookups(servers: usize, entries: u32, hit: bool) -> Scene {
    let mut random = Random::new(servers as u64);
    let (table, mut medium) = filled(&mut random, servers, entries, entries);
    let calls = 1_000.min(64 * MAX_CAPACITY / entries);
    let list: Vec<Call> = (0..calls)
        .map(|_| {
            let id = fresh_id(&mut random, if hit { 1 } else { 2 });
            if hit {
                place(&mut random, &table, &mut medium, id);
            }
            Call::lookup(id)
        })
        .collect();
    Scene::resume(&table, medium, &list)
}

/// Whose ids a batch looks up.
const TENANT: u32 = 4;

/// Full servers, and ids of one tenant that stand anywhere on their write server, each at most once.
fn placed(servers: usize, entries: u32) -> (Table, Vec<u32>, Vec<u32>) {
    let mut random = Random::new(servers as u64);
    let (table, mut medium) = filled(&mut random, servers, entries, entries);
    let some = (entries * servers as u32 / 4).min(1_024);
    let ids: Vec<u32> = (0..some)
        .map(|_| moved(fresh_id(&mut random, 1), TENANT))
        .collect();
    for &id in &ids {
        place(&mut random, &table, &mut medium, id);
    }
    let all = ids.iter().cycle().take(1_024).copied().collect();
    (table, medium, all)
}

/// Lookups that find, each alone.
fn found(servers: usize, entries: u32) -> Scene {
    let (table, medium, ids) = placed(servers, entries);
    let list: Vec<Call> = ids.into_iter().map(Call::lookup).collect();
    Scene::calls(&table, medium, &list)
}

/// The same in batches of so many.
fn batches(servers: usize, entries: u32, size: usize) -> Scene {
    let (table, medium, ids) = placed(servers, entries);
    Scene::batches(&table, medium, &ids, size)
}

/// Half full servers, and ids that have four live entries each on their write server, with a value.
fn rewrites(servers: usize) -> (Table, Vec<u32>, Vec<(u32, u32)>) {
    let mut random = Random::new(servers as u64);
    let (table, mut medium) = filled(&mut random, servers, ENTRIES, ENTRIES / 2);
    let pairs = (0..500)
        .map(|_| {
            let id = fresh_id(&mut random, 1);
            for _ in 0..4 {
                place(&mut random, &table, &mut medium, id);
            }
            (id, random.below(CONTENT_RANGE))
        })
        .collect();
    (table, medium, pairs)
}

fn written(pairs: &[(u32, u32)]) -> Vec<Call> {
    pairs
        .iter()
        .map(|&(id, value)| Call::write(id, value))
        .collect()
}

fn deleted(pairs: &[(u32, u32)]) -> Vec<Call> {
    pairs.iter().map(|&(id, _)| Call::delete(id)).collect()
}

fn writes(servers: usize) -> Scene {
    let (table, medium, pairs) = rewrites(servers);
    Scene::resume(&table, medium, &written(&pairs))
}

fn deletes(servers: usize) -> Scene {
    let (table, medium, pairs) = rewrites(servers);
    Scene::resume(&table, medium, &deleted(&pairs))
}

/// Four small servers, half full, and new ids with a value.
fn few() -> (Table, Vec<u32>, Vec<(u32, u32)>) {
    let mut random = Random::new(4);
    let (table, medium) = filled(&mut random, 4, 64, 32);
    let pairs = (0..64)
        .map(|_| (fresh_id(&mut random, 1), random.below(CONTENT_RANGE)))
        .collect();
    (table, medium, pairs)
}

fn few_writes() -> Scene {
    let (table, medium, pairs) = few();
    Scene::resume(&table, medium, &written(&pairs))
}

/// Each id has an entry there.
fn few_deletes() -> Scene {
    let mut random = Random::new(5);
    let (table, mut medium, pairs) = few();
    for &(id, _) in &pairs {
        place(&mut random, &table, &mut medium, id);
    }
    Scene::resume(&table, medium, &deleted(&pairs))
}

/// The same writes, each alone.
fn replacing(servers: usize) -> Scene {
    let (table, medium, pairs) = rewrites(servers);
    Scene::calls(&table, medium, &written(&pairs))
}

/// Writes of new ids to blank servers, each alone.
fn new_writes(servers: usize) -> Scene {
    let mut random = Random::new(servers as u64);
    let (table, medium) = filled(&mut random, servers, ENTRIES, 0);
    let list: Vec<Call> = (0..500)
        .map(|_| {
            let id = random.below(CONTENT_RANGE);
            Call::write(id, random.below(CONTENT_RANGE))
        })
        .collect();
    Scene::calls(&table, medium, &list)
}

/// Weights set anew, each alone.
fn reweights(servers: usize) -> Scene {
    let mut random = Random::new(servers as u64);
    let (table, medium) = filled(&mut random, servers, ENTRIES, 0);
    let list: Vec<Call> = (0..1_000)
        .map(|_| Call::Reweight {
            server: random.below(servers as u32),
            weight: random.below(ENTRIES + 1),
        })
        .collect();
    Scene::calls(&table, medium, &list)
}

fn add_server() -> Scene {
    let list = [Call::AddServer {
        weight: MAX_CAPACITY,
    }; 8];
    let medium_len = 8 * 3 * MAX_CAPACITY as usize;
    Scene::replay([MAX_CAPACITY, SALT], medium_len, &list)
}

const MIXED_CALLS: u32 = 100_000;

/// All servers, then writes that fill three quarters of the entries, over half as many ids, mixed
/// with some deletes and reweights and with lookups of ids written before.
fn mixed(servers: u32, capacity: u32) -> Scene {
    let mut random = Random::new(u64::from(servers));
    let entries = servers * capacity;
    let writes = entries * 3 / 4;
    let ids: Vec<u32> = (0..entries / 2)
        .map(|_| random.below(CONTENT_RANGE))
        .collect();
    let mut written = vec![ids[0]];
    let mut list = vec![Call::AddServer { weight: capacity }; servers as usize];
    while list.len() < MIXED_CALLS as usize {
        let part = random.below(MIXED_CALLS);
        let id = random.pick(if part < writes { &ids } else { &written });
        list.push(if part < writes {
            written.push(id);
            Call::write(id, random.below(CONTENT_RANGE))
        } else if part < writes + writes / 8 {
            Call::delete(id)
        } else if part < writes + writes / 4 {
            let server = random.below(servers);
            let weight = random.below(capacity / 4 + 1);
            Call::Reweight { server, weight }
        } else {
            Call::lookup(id)
        });
    }
    Scene::replay([capacity, SALT], (3 * entries) as usize, &list)
}

/// How many images are written or read in a run.
const IMAGES: usize = 1_000;

/// Servers of any weight with some entries used, and tenants that opened some.
fn to_be_kept(servers: usize) -> Table {
    let mut random = Random::new(servers as u64);
    let (mut table, _) = filled(&mut random, servers, ENTRIES, 0);
    for server in 0..servers {
        let weight = random.below(ENTRIES + 1);
        table.reweight(server as u32, weight).expect("free");
        table.used[server] = random.below(ENTRIES + 1);
    }
    table.counters = table.counters.map(|_| random.below(CONTENT_RANGE));
    table
}
