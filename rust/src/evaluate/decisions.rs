//! What a placement decision takes: the proved picks, the same rule with another draw, ASURA and
//! consistent hashing.

use std::hint::black_box;
use std::time::Instant;

use super::asura::Asura;
use super::chart::{Axis, Bars};
use super::ideal::{self, splitmix};
use super::ids::scattered;
use super::report::{row, Report, Setting, Table, MACHINE};
use super::ring::Ring;
use super::scale::whole;
use ticket_archive::functions as proved;

/// The servers that a decision is made among.
const SIZES: [usize; 2] = [16, 256];

/// The least of some times of a run over all ids, in ns an id.
fn time(ids: &[u32], mut run: impl FnMut(&[u32]) -> usize) -> f64 {
    let once = |_| {
        let began = Instant::now();
        black_box(run(black_box(ids)));
        began.elapsed().as_nanos() as f64 / ids.len() as f64
    };
    (0..7).map(once).fold(f64::MAX, f64::min)
}

/// ns a decision of each method.
fn decisions_of(servers: usize, ids: &[u32]) -> [f64; 4] {
    let weights = vec![1; servers];
    let (asura, ring) = (Asura::equal(servers), Ring::of(servers));
    let mut picked = vec![0; ids.len()];
    let control = |id: u32| ideal::write_server(&weights, servers as u64, splitmix, id);
    [
        time(ids, |ids| proved::picks(&weights, 0, ids, &mut picked)),
        time(ids, |ids| ids.iter().map(|&id| control(id)).sum()),
        time(ids, |ids| ids.iter().map(|&id| asura.server(id)).sum()),
        time(ids, |ids| ids.iter().map(|&id| ring.server(id)).sum()),
    ]
}

const METHODS: [&str; 4] = [
    "Sequential Checking, proved `archive_picks`",
    "Sequential Checking, plain Rust, splitmix64 as RAND",
    "ASURA, plain Rust",
    "consistent hashing, 100 virtual nodes, plain Rust",
];

/// What is published of the time of a decision, the introduction of 003; section IV-B has the machine.
const PUBLISHED_TIMES: [&str; 4] = [
    "not published",
    "not published",
    "about 600 ns",
    "under 1,000 ns",
];

fn table(count: u32, times: &[[f64; 4]]) -> Table {
    let methods = METHODS.iter().zip(PUBLISHED_TIMES).enumerate();
    let rows = methods.map(|(at, (name, published))| {
        let ns = times.iter().map(|times| format!("{:.0}", times[at]));
        [name.to_string(), published.into()]
            .into_iter()
            .chain(ns)
            .collect()
    });
    let sizes = SIZES.map(|servers| format!("{servers} servers, ns {MACHINE}"));
    Table {
        name: "decisions",
        seeded: false,
        set_up: format!(
            "{} scattered ids over servers of one weight; the best of seven runs. The published times are of a \
             Core2 Quad Q9650 and up to 1,200 nodes (003, introduction and section IV-B).",
            whole(u64::from(count))
        ),
        head: row(["Method", "published, a decision"]).into_iter().chain(sizes).collect(),
        rows: rows.collect(),
    }
}

fn picture(times: &[[f64; 4]]) -> String {
    let names = [
        "proved picks",
        "same rule, splitmix64",
        "ASURA",
        "consistent hashing",
    ];
    let of = |(at, name): (usize, &&str)| {
        let times = times.iter().map(|times| Some(times[at])).collect();
        (name.to_string(), times)
    };
    Bars {
        title: format!("Time of a placement decision {MACHINE}"),
        x_name: "servers",
        y: Axis::log("ns a decision", 10.0, [1.0, 2_000.0]),
        groups: SIZES.map(|servers| servers.to_string()).to_vec(),
        series: names.iter().enumerate().map(of).collect(),
        shown: |ns| format!("{ns:.0}"),
    }
    .drawn()
}

pub fn run(setting: Setting, report: &mut Report) {
    let began = Instant::now();
    let count = setting.either(200_000, 20_000) as u32;
    let ids: Vec<u32> = (0..count).map(scattered).collect();
    let times = SIZES.map(|servers| decisions_of(servers, &ids));
    report.table(setting, began, table(count, &times));
    report.picture("decisions", picture(&times));
}
