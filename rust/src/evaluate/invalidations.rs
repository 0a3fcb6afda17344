//! Invalidations a write: source document 001's table 4. A write sends an invalidation to each
//! readable server above the one that it goes to.

use std::time::Instant;

use super::chart::{Axis, Chart, Series, COLORS};
use super::growth_model::shares;
use super::report::{row, Report, Setting, Table};
use super::store::{Fractions, Store};
use super::svg::Mark;
use crate::calls::Call;
use crate::random::Random;

/// The servers, and what table 4 has for them.
const PUBLISHED: [(usize, f64); 6] = [
    (8, 1.283),
    (16, 1.343),
    (32, 1.292),
    (64, 1.227),
    (128, 1.162),
    (256, 1.103),
];

/// The weight of a volume of 1.0, and the entries of a server.
const UNIT: u32 = 10_000;

/// How often every volume is drawn anew before the writes.
const CHANGES: usize = 100;

/// What one archive gives.
#[derive(Clone, Copy, Default)]
struct Counts {
    /// Invalidations sent, and entries that were there to be invalidated.
    sent: f64,
    marked: f64,
    /// What the rule alone gives with the archive's WriteP and ReadP.
    expected: f64,
}

/// The expected number of readable servers above the one that is written to.
fn expected(fractions: &[Fractions]) -> f64 {
    let write: Vec<f64> = fractions.iter().map(|fractions| fractions.write).collect();
    let mut above = 0.0;
    let mut expected = 0.0;
    for (share, fractions) in shares(&write).iter().zip(fractions).rev() {
        expected += share * above;
        if fractions.write < 1.0 {
            above += (fractions.read - fractions.write) / (1.0 - fractions.write);
        }
    }
    expected
}

/// Changes the weights a hundred times, then writes ids. The lookup of an id just written opens the
/// readable servers down to the one that it went to: one more than those that get an invalidation.
fn counted(random: &mut Random, servers: usize, writes: u32, at_once: bool) -> Counts {
    let mut store = Store::with_servers(UNIT, servers, servers, 0);
    for _ in 0..CHANGES {
        let weights: Vec<u32> = (0..servers).map(|_| random.below(UNIT)).collect();
        match at_once {
            true => store.reweight_all(&weights),
            false => store.reweight_in_order(&weights),
        }
    }
    let first = random.below(1 << 29);
    let write = (first..first + writes).map(|id| Call::write(id, 0));
    let written = store.accepted(&write.collect::<Vec<Call>>());
    let lookup = (first..first + writes).map(Call::lookup);
    let found = store.accepted(&lookup.collect::<Vec<Call>>());
    let mean = |sum: u32| f64::from(sum) / f64::from(writes);
    Counts {
        sent: mean(found.iter().map(|reply| reply.opened - 1).sum()),
        marked: mean(written.iter().map(|reply| reply.invalidated).sum()),
        expected: expected(&store.fractions()),
    }
}

/// The mean over some archives.
fn mean(setting: Setting, servers: usize, at_once: bool) -> Counts {
    let archives = setting.either(100, 10);
    let mut random = Random::new(setting.seed);
    let mut sum = Counts::default();
    for _ in 0..archives {
        let counts = counted(&mut random, servers, 1_000, at_once);
        sum.sent += counts.sent / archives as f64;
        sum.marked += counts.marked / archives as f64;
        sum.expected += counts.expected / archives as f64;
    }
    sum
}

/// What was measured for each number of servers, with the weights changed at once and one by one.
type Measured = [[Counts; 2]; 6];

fn table(setting: Setting, measured: &Measured) -> Table {
    let line = |((servers, published), [at_once, in_order]): (&(usize, f64), &[Counts; 2])| {
        let numbers = [
            *published,
            at_once.sent,
            at_once.expected,
            at_once.marked,
            in_order.sent,
        ];
        let numbers = numbers.iter().map(|number| format!("{number:.3}"));
        [servers.to_string()].into_iter().chain(numbers).collect()
    };
    Table {
        name: "table-4",
        seeded: true,
        set_up: format!(
            "every server's volume is drawn {CHANGES} times from 0.0 up to 1.0 (a weight below {UNIT}), \
             then 1,000 ids in sequence are written; the mean of {} archives. Invalidations sent are the \
             opened count of a lookup after the write less one. The last column sets the weights one \
             after another, from server 0 up, and takes no care of ReadP.",
            setting.either(100, 10)
        ),
        head: row([
            "Servers",
            "published",
            "measured",
            "by the rule alone",
            "entries marked",
            "measured, weights set one after another",
        ]),
        rows: PUBLISHED.iter().zip(measured).map(line).collect(),
    }
}

fn picture(measured: &Measured) -> String {
    let points = |value: &dyn Fn(usize) -> f64| -> Vec<[f64; 2]> {
        let point = |at: usize| [PUBLISHED[at].0 as f64, value(at)];
        (0..PUBLISHED.len()).map(point).collect()
    };
    let published = points(&|at| PUBLISHED[at].1);
    let at_once = points(&|at| measured[at][0].sent);
    let rule = points(&|at| measured[at][0].expected);
    let in_order = points(&|at| measured[at][1].sent);
    Chart {
        title: "Invalidations a write after 100 changes of every volume (table 4 of 001)".into(),
        x: Axis::log("servers", 2.0, [6.0, 300.0]),
        y: Axis::linear("invalidations sent a write", [0.0, 2.0]),
        series: vec![
            Series::points("published", "black", Mark::Diamond, published),
            Series::points("measured", COLORS[0], Mark::Dot, at_once),
            Series::line("by the rule alone", COLORS[0], true, rule),
            Series::points("weights set one by one", COLORS[1], Mark::Cross, in_order),
        ],
    }
    .drawn()
}

pub fn run(setting: Setting, report: &mut Report) {
    let began = Instant::now();
    let of = |(servers, _)| [true, false].map(|at_once| mean(setting, servers, at_once));
    let measured = PUBLISHED.map(of);
    report.table(setting, began, table(setting, &measured));
    report.picture("table-4", picture(&measured));
}
