//! The cases of the counters that lists and batches meet, and how often they do.

use std::fmt;

use crate::archive::{Table, MAX_COUNTER, TENANTS};
use crate::calls::{Call, REFUSAL, REPLY_WORDS};
use crate::counters::{of, told_by_list, Counters, Told, ABOVE};

/// Each case, with the least number of times that lists and that batches meet it for 10,000 calls
/// asked for: about a third of what they do.
const CASES: [(&str, [u64; 2]); 15] = [
    ("found", [300, 170]),
    ("refused by 1", [200, 700]),
    ("refused by 2", [90, 130]),
    ("refused by 3", [90, 60]),
    ("refused by 5", [7, 18]),
    ("refused by 8 and counted", [1_000, 700]),
    ("refused by 10 and counted", [14, 60]),
    ("refused by 11", [90, 300]),
    ("the stop just reached", [14, 12]),
    ("cut at the stop", [6, 5]),
    ("at the stop before", [200, 200]),
    ("refused for a counter of 2^30", [60, 250]),
    ("refused for a counter of 2^32 - 1", [60, 250]),
    ("another call accepted with a counter at the stop", [180, 0]),
    ("cut at the stop after the first id", [0, 11]),
];

/// The refusals of a lookup, each at the place of its case.
const REFUSALS: [u32; 8] = [0, 1, 2, 3, 5, 8, 10, 11];
const REACHED: usize = 8;
const CUT: usize = 9;
const STAYED: usize = 10;
const JUST_ABOVE: usize = 11;
const FAR_ABOVE: usize = 12;
const OTHER_CALL: usize = 13;
const CROSSED: usize = 14;

/// The least number of times that each tenant's counter meets the stop, likewise.
const STOPS: [u64; 2] = [2, 2];

/// What is counted: the lookups of lists, or the ids of batches.
#[derive(Clone, Copy)]
pub enum Kind {
    Lists,
    Batches,
}

/// How often each case was met.
#[derive(Default)]
pub struct Cases {
    met: [u64; CASES.len()],
    /// The counters that met the stop, by tenant.
    stops: [u64; TENANTS as usize],
}

impl Cases {
    /// What a list met, from the table before it.
    pub fn count_list(&mut self, table: &[u32], list: &[Call], replies: &[u32]) {
        let Some(before) = of(table) else {
            return;
        };
        self.count(before, &told_by_list(list, replies));
        if before.contains(&MAX_COUNTER) {
            let calls = list.iter().zip(replies.chunks_exact(REPLY_WORDS));
            let is_met = |(call, reply): &(&Call, &[u32])| {
                reply[REFUSAL] == 0 && !matches!(call, Call::Lookup { .. })
            };
            self.met[OTHER_CALL] += calls.filter(is_met).count() as u64;
        }
        let is_call = |call: &&Call| !matches!(call, Call::None { .. });
        let calls = list.iter().filter(is_call).count();
        self.count_above(table, before, calls as u64);
    }

    /// What a batch met, from the table before it.
    pub fn count_batch(&mut self, table: &[u32], told: &[Told]) {
        let Some(before) = of(table) else {
            return;
        };
        self.count(before, told);
        self.met[CROSSED] += u64::from(is_crossed(before, told));
        self.count_above(table, before, told.len() as u64);
    }

    fn count(&mut self, before: Counters, told: &[Told]) {
        let mut counters = before;
        for &lookup in told {
            let case = REFUSALS.iter().position(|&number| number == lookup.refusal);
            self.met[case.expect("a refusal of a lookup")] += 1;
            if lookup.opened > 0 {
                self.count_opened(&mut counters, lookup);
            }
        }
    }

    fn count_opened(&mut self, counters: &mut Counters, lookup: Told) {
        let counter = &mut counters[lookup.tenant as usize];
        let room = MAX_COUNTER - *counter;
        let case = match lookup.opened {
            _ if room == 0 => Some(STAYED),
            opened if opened == room => Some(REACHED),
            opened if opened > room => Some(CUT),
            _ => None,
        };
        if let Some(case) = case {
            self.met[case] += 1;
            self.stops[lookup.tenant as usize] += u64::from(case != STAYED);
        }
        *counter += lookup.opened.min(room);
    }

    /// Calls or ids that were refused since a counter is above the stop, and for nothing else.
    fn count_above(&mut self, table: &[u32], before: Counters, calls: u64) {
        let Some(edge) = ABOVE.iter().position(|edge| before.contains(edge)) else {
            return;
        };
        let otherwise = Table {
            counters: [0; TENANTS as usize],
            ..Table::from_words(table.first_chunk().expect("a whole table"))
        };
        if otherwise.is_sound() {
            self.met[[JUST_ABOVE, FAR_ABOVE][edge]] += calls;
        }
    }

    /// The cases that were met too rarely for so many calls asked for.
    pub fn missed(&self, kind: Kind, asked: u64) -> Vec<String> {
        let is_rare = |met: u64, least: [u64; 2]| met < asked * least[kind as usize] / 10_000;
        let cases = CASES.iter().zip(self.met);
        let rare = cases.filter(|((_, least), met)| is_rare(*met, *least));
        let mut names: Vec<String> = rare.map(|((name, _), _)| name.to_string()).collect();
        let tenants = (0..).zip(self.stops);
        let stops = tenants.filter(|(_, met)| is_rare(*met, STOPS));
        names.extend(stops.map(|(tenant, _): (u32, u64)| format!("the stop of tenant {tenant}")));
        names
    }
}

/// Whether a batch is cut at the stop by an id that is not the first to be counted.
fn is_crossed(before: Counters, told: &[Told]) -> bool {
    let mut opened = told.iter().filter(|id| id.opened > 0);
    let Some(first) = opened.next() else {
        return false;
    };
    let room = MAX_COUNTER - before[first.tenant as usize];
    let rest: u32 = opened.map(|id| id.opened).sum();
    first.opened < room && rest > room - first.opened
}

impl fmt::Display for Cases {
    fn fmt(&self, out: &mut fmt::Formatter<'_>) -> fmt::Result {
        for ((name, _), met) in CASES.iter().zip(self.met).filter(|(_, met)| *met > 0) {
            write!(out, "{name}: {met}, ")?;
        }
        write!(out, "the stop met by tenant: {:?}", self.stops)
    }
}
