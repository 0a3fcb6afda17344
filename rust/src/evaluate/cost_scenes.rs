//! Archives of so many servers and entries, and what calls on them take and do.

use std::time::Instant;

use super::store::Store;
use crate::calls::{Call, CALL_WORDS, REPLY_WORDS};
use crate::random::Random;
use ticket_archive::{functions as proved, MAX_IDS};

/// The entries of a server that writes find free.
const ROOM: u32 = 512;

/// The first of the ids that fill the servers and are never named, all of the last tenant.
const FILLER: u32 = 7 << 27;

/// The first of the ids that are nowhere.
const ABSENT: u32 = 1 << 26;

/// About how many entries a timed list goes over, and the most calls of one.
const ENTRIES_OF_A_LIST: f64 = (1 << 23) as f64;
const MOST_CALLS: usize = 2_048;

/// How often a list is timed.
const RUNS: usize = 7;

/// The kinds of calls that are timed.
#[derive(Clone, Copy, PartialEq, Debug)]
pub enum Kind {
    Hit,
    Miss,
    Write,
    Delete,
    Batch,
}

pub const KINDS: [(Kind, &str); 5] = [
    (Kind::Hit, "lookup that finds"),
    (Kind::Miss, "lookup that finds none"),
    (Kind::Write, "write of a new id"),
    (Kind::Delete, "delete that finds"),
    (Kind::Batch, "lookup that finds, in batches of 256"),
];

/// An archive whose servers have so many used entries each, of equal weights.
pub struct Scene {
    pub servers: usize,
    pub entries: u32,
    store: Store,
    /// The ids that can be found, each with its server and its entry.
    present: Vec<(u32, u32, u32)>,
}

/// What a call takes, and how many servers and entries it goes over; means over a list.
#[derive(Clone, Copy)]
pub struct Cost {
    pub ns: f64,
    pub servers: f64,
    pub entries: f64,
}

/// The server that each id is picked by.
fn picked(servers: usize, ids: &[u32]) -> Vec<u32> {
    let mut picked = vec![0; ids.len()];
    let stored = proved::picks(&vec![1; servers], 0, ids, &mut picked);
    assert_eq!(stored, ids.len(), "the weights are in range");
    picked
}

impl Scene {
    pub fn new(servers: usize, entries: u32, random: &mut Random) -> Self {
        let mut store = Store::with_servers(entries + ROOM, servers, servers, 1);
        let filler = |server: usize| {
            let first = FILLER + server as u32 * entries;
            (first..first + entries).collect::<Vec<u32>>()
        };
        let mut ids: Vec<Vec<u32>> = (0..servers).map(filler).collect();
        let candidates: Vec<u32> = (0..MOST_CALLS as u32).collect();
        let mut present = Vec::new();
        let mut named = vec![0; servers];
        for (&id, server) in candidates.iter().zip(picked(servers, &candidates)) {
            let entry = random.below(entries);
            let place = &mut ids[server as usize][entry as usize];
            if *place >= FILLER && named[server as usize] < entries / 2 {
                *place = id;
                named[server as usize] += 1;
                present.push((id, server, entry));
            }
        }
        store.fill(&ids);
        Scene {
            servers,
            entries,
            store,
            present,
        }
    }

    /// The ids that can be found, over and over up to so many.
    fn found(&self, count: usize) -> impl Iterator<Item = &(u32, u32, u32)> {
        self.present.iter().cycle().take(count)
    }

    /// The servers that a lookup of each id opens, and what it goes over; from the replies.
    fn lookup_work(&self, ids: &[(u32, u32, u32)]) -> [f64; 2] {
        let list: Vec<Call> = ids.iter().map(|&(id, ..)| Call::lookup(id)).collect();
        let mut work = [0.0; 2];
        self.store.clone().each(&list, |at, reply| {
            assert_eq!(reply.refusal, 0, "the id is there");
            let (_, server, entry) = ids[at];
            work[0] += (self.servers - server as usize) as f64;
            work[1] += f64::from(reply.opened - 1) * f64::from(self.entries)
                + f64::from(self.entries - entry);
        });
        work.map(|sum| sum / ids.len() as f64)
    }

    /// The same for an id that is nowhere, or one that is searched for on every readable server.
    fn whole_work(&self, ids: &[u32]) -> [f64; 2] {
        let mut blank = self.store.clone();
        blank.medium.fill(ticket_archive::BLANK);
        let list: Vec<Call> = ids.iter().map(|&id| Call::lookup(id)).collect();
        let opened = blank
            .run(&list)
            .iter()
            .map(|reply| f64::from(reply.opened))
            .sum::<f64>();
        [
            self.servers as f64,
            opened / ids.len() as f64 * f64::from(self.entries),
        ]
    }

    /// How many calls a list has that go over so many entries each.
    fn calls(&self, entries: f64) -> usize {
        ((ENTRIES_OF_A_LIST / entries) as usize).clamp(32, MOST_CALLS)
    }

    pub fn cost(&self, kind: Kind) -> Cost {
        let entries = f64::from(self.entries);
        let harmonic: f64 = (1..=self.servers).map(|server| 1.0 / server as f64).sum();
        match kind {
            Kind::Hit | Kind::Batch => {
                let calls = self.calls(entries).next_multiple_of(MAX_IDS);
                let ids: Vec<(u32, u32, u32)> = self.found(calls).copied().collect();
                let work = self.lookup_work(&ids);
                let ids: Vec<u32> = ids.iter().map(|&(id, ..)| id).collect();
                let ns = match kind {
                    Kind::Batch => self.time_batches(&ids),
                    _ => self.time(&ids.iter().map(|&id| Call::lookup(id)).collect::<Vec<_>>()),
                };
                cost(ns, work)
            }
            Kind::Miss => {
                let calls = self.calls(entries * harmonic) as u32;
                let ids: Vec<u32> = (ABSENT..ABSENT + calls).collect();
                let list: Vec<Call> = ids.iter().map(|&id| Call::lookup(id)).collect();
                cost(self.time(&list), self.whole_work(&ids))
            }
            Kind::Delete => {
                let calls = self.calls(entries * harmonic).min(self.present.len());
                let ids: Vec<u32> = self.found(calls).map(|&(id, ..)| id).collect();
                let list: Vec<Call> = ids.iter().map(|&id| Call::delete(id)).collect();
                cost(self.time(&list), self.whole_work(&ids))
            }
            Kind::Write => self.write_cost(),
        }
    }

    /// A new id is searched for on the server that it goes to, all of whose entries are gone over.
    fn write_cost(&self) -> Cost {
        let calls = self.calls(f64::from(self.entries)).min(ROOM as usize) as u32;
        let ids: Vec<u32> = (ABSENT..ABSENT + calls).collect();
        let mut used = vec![self.entries; self.servers];
        let mut work = [0.0; 2];
        for server in picked(self.servers, &ids) {
            work[0] += (self.servers - server as usize) as f64;
            work[1] += f64::from(used[server as usize]);
            used[server as usize] += 1;
        }
        let list: Vec<Call> = ids.iter().map(|&id| Call::write(id, 0)).collect();
        cost(self.time(&list), work.map(|sum| sum / f64::from(calls)))
    }

    /// The least time of a list from the scene's table and medium, in ns a call.
    fn time(&self, list: &[Call]) -> f64 {
        let words: Vec<u32> = list.iter().flat_map(|call| call.words(0)).collect();
        assert_eq!(words.len(), list.len() * CALL_WORDS);
        let mut replies = vec![0; list.len() * REPLY_WORDS];
        let mut best = f64::MAX;
        for _ in 0..RUNS {
            let mut store = self.store.clone();
            let began = Instant::now();
            let ran = proved::resume(&mut store.table, &words, &mut store.medium, &mut replies);
            best = best.min(began.elapsed().as_nanos() as f64);
            assert_eq!(ran, list.len(), "the runs have room for every call");
        }
        best / list.len() as f64
    }

    /// The same for lookups in batches, in ns an id.
    fn time_batches(&self, ids: &[u32]) -> f64 {
        let mut table = self.store.table.clone();
        let mut replies = vec![0; MAX_IDS * REPLY_WORDS];
        let (mut order, mut mounts) = (vec![0; MAX_IDS], [0]);
        let mut best = f64::MAX;
        for _ in 0..RUNS {
            let began = Instant::now();
            for batch in ids.chunks(MAX_IDS) {
                let refusal = proved::lookup_batch(
                    &mut table,
                    &self.store.medium,
                    0,
                    batch,
                    &mut replies,
                    &mut order,
                    &mut mounts,
                );
                assert_eq!(refusal, 0, "the list is in range");
            }
            best = best.min(began.elapsed().as_nanos() as f64);
        }
        best / ids.len() as f64
    }

    /// A lookup that finds nothing, and the plain sum of the medium's words: the bytes a second that
    /// each goes over.
    pub fn scan_speeds(&self) -> [f64; 2] {
        let miss = self.cost(Kind::Miss);
        let bytes = 4.0 * self.store.medium.len() as f64;
        let mut best = f64::MAX;
        for _ in 0..RUNS {
            let began = Instant::now();
            let sum = self
                .store
                .medium
                .iter()
                .fold(0u32, |sum, &word| sum.wrapping_add(word));
            std::hint::black_box(sum);
            best = best.min(began.elapsed().as_secs_f64());
        }
        [12.0 * miss.entries / miss.ns * 1e9, bytes / best]
    }

    /// How many bytes the used entries of all servers have.
    pub fn bytes(&self) -> u64 {
        12 * u64::from(self.entries) * self.servers as u64
    }
}

fn cost(ns: f64, [servers, entries]: [f64; 2]) -> Cost {
    Cost {
        ns,
        servers,
        entries,
    }
}
