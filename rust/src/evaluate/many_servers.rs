//! Filing shares on 256 servers: source document 000's section IV-B-1, what the draw has to do with
//! it, and the shares over all ids.

use std::time::Instant;

use super::chart::{Axis, Bars};
use super::filing::{drawn, errors, most, picked, worst};
use super::ideal::{murmur, splitmix, three_rounds, twelve_rounds};
use super::ids::{in_sequence, scattered, within_tenant};
use super::report::{percent, row, size, Report, Setting, Table};
use super::scale::whole;
use crate::random::Random;

/// The weight that stands for a volume of 1.0: the greatest volume, 1.5, is below 65,536.
const UNIT: f64 = 43_690.0;

/// What is published in section IV-B-1 of 000; 001 has 0.51 % in the place of 0.55 %.
const PUBLISHED: &str = "0.28 % to 0.55 %, mean 0.35 %";

/// Weights of 256 servers, volumes drawn from 0.5 up to 1.5.
fn weights(setting: Setting) -> Vec<u32> {
    let mut random = Random::new(setting.seed);
    let mut volume = || 0.5 + f64::from(random.word()) / 4_294_967_296.0;
    (0..256).map(|_| (volume() * UNIT) as u32).collect()
}

/// How many data there are for so many for each 1.0 of volume.
fn data(weights: &[u32], each: f64) -> u64 {
    let sum: f64 = weights.iter().map(|&weight| f64::from(weight)).sum();
    (sum / UNIT * each) as u64
}

/// A row: how far the server that is worst off is from its share, and the one that gets too much by
/// most.
fn measured(name: &str, weights: &[u32], counts: &[u64]) -> Vec<String> {
    let errors = errors(weights, counts);
    let (server, error) = worst(&errors);
    let ids = counts.iter().sum();
    vec![
        name.into(),
        whole(ids),
        format!("{}, server {server}", size(error)),
        percent(most(&errors)),
    ]
}

fn head() -> Vec<String> {
    row(["Ids", "data", "largest error", "farthest above its share"])
}

/// Section IV-B-1 with so many data for each 1.0 of volume.
fn section(setting: Setting, each: f64) -> Vec<Vec<String>> {
    let weights = weights(setting);
    let numbers = 0..data(&weights, each);
    let mut rows = vec![row([
        "published (Mersenne Twister; 001: 100 draws of the volumes)",
        "256,000,000 on average",
        PUBLISHED,
        "not published",
    ])];
    let mut add = |name: &str, counts: &[u64]| rows.push(measured(name, &weights, counts));
    add(
        "in sequence",
        &picked(&weights, in_sequence, numbers.clone()),
    );
    add("scattered", &picked(&weights, scattered, numbers.clone()));
    if numbers.end < 1 << 27 {
        let counts = picked(&weights, within_tenant, numbers.clone());
        add("scattered within a tenant", &counts);
    }
    add(
        "control: splitmix64 as RAND",
        &drawn(&weights, splitmix, numbers),
    );
    rows
}

fn set_up(each: u64) -> String {
    format!(
        "256 servers of volumes from 0.5 up to 1.5, {} data for each 1.0 of volume (published: \
            1,000,000), filed by `archive_picks`, \
         salt 0, and by the same rule in plain Rust with splitmix64 over id and server as RAND. \
         One draw of the volumes.",
        whole(each)
    )
}

/// Section IV-B-1 with a tenth of the published data.
fn tenth(setting: Setting, report: &mut Report) {
    let began = Instant::now();
    let each = setting.either(100_000, 10_000);
    let table = Table {
        name: "section-4b1",
        seeded: true,
        set_up: format!(
            "{} With {} times less data, chance alone makes the errors some {:.1} \
            times those published.",
            set_up(each),
            1_000_000 / each,
            (1_000_000.0 / each as f64).sqrt()
        ),
        head: head(),
        rows: section(setting, each as f64),
    };
    report.table(setting, began, table);
}

/// Section IV-B-1 with all the published data: some minutes, so no part of the usual run.
pub fn run_whole(setting: Setting, report: &mut Report) {
    let began = Instant::now();
    let each = setting.either(1_000_000, 20_000);
    let table = Table {
        name: "section-4b1-whole",
        seeded: true,
        set_up: set_up(each),
        head: head(),
        rows: section(setting, each as f64),
    };
    report.table(setting, began, table);
}

/// The draws that are compared, by name.
const CAUSES: [&str; 4] = [
    "prescribed: seed, three rounds",
    "seed, twelve rounds",
    "seed, finalizer of MurmurHash3",
    "splitmix64 over id and server",
];

/// The largest error with each of the draws.
fn by_draw(weights: &[u32], ids: u64) -> [f64; 4] {
    let counts = [
        drawn(weights, three_rounds, 0..ids),
        drawn(weights, twelve_rounds, 0..ids),
        drawn(weights, murmur, 0..ids),
        drawn(weights, splitmix, 0..ids),
    ];
    counts.map(|counts| worst(&errors(weights, &counts)).1.abs())
}

/// The largest error with each of the draws, on ids in sequence.
fn cause(setting: Setting, report: &mut Report) {
    let began = Instant::now();
    let servers = [6, 16, 64];
    let each = setting.either(100_000, 10_000);
    let columns = servers.map(|servers| by_draw(&vec![1; servers], each * servers as u64));
    let line = |(at, name): (usize, &&str)| {
        let errors = columns.iter().map(|column| size(column[at]));
        [name.to_string()].into_iter().chain(errors).collect()
    };
    report.table(
        setting,
        began,
        Table {
            name: "cause",
            seeded: false,
            set_up: format!(
                "the write rule in plain Rust with four draws on ids in sequence from 0 \
            on, {} for each server, all of one weight; largest error of a server.",
                whole(each)
            ),
            head: row(["Draw", "6 servers", "16 servers", "64 servers"]),
            rows: CAUSES.iter().enumerate().map(line).collect(),
        },
    );
    let series = CAUSES.iter().enumerate().map(|(at, name)| {
        let errors = columns.iter().map(|column| Some(column[at])).collect();
        (name.to_string(), errors)
    });
    let bars = Bars {
        title: "Largest error of a server's share, ids in sequence".into(),
        x_name: "servers of one weight, 100,000 ids each",
        y: Axis::linear("largest error, %", [0.0, 10.0]),
        groups: servers.map(|servers| servers.to_string()).to_vec(),
        series: series.collect(),
        shown: |error| format!("{error:.2}"),
    };
    report.picture("cause", bars.drawn());
}

/// The share of each of 6, 16 and 256 servers over all ids.
fn all_ids(setting: Setting, report: &mut Report) {
    let began = Instant::now();
    let all = setting.either(1 << 30, 1 << 24);
    let mut rows = Vec::new();
    for servers in [6, 16, 256] {
        let weights = vec![1; servers];
        let counts = picked(&weights, in_sequence, 0..all);
        let errors = errors(&weights, &counts);
        let (server, error) = worst(&errors);
        rows.push(vec![
            servers.to_string(),
            whole(all),
            format!(
                "{} of {:.3} %, server {server}",
                percent(error),
                100.0 / servers as f64
            ),
            percent(most(&errors)),
            format!("{:.2} %", 100.0 / (1.0 + most(&errors) / 100.0)),
        ]);
    }
    report.table(
        setting,
        began,
        Table {
            name: "all-ids",
            seeded: false,
            set_up: "servers of one weight, `archive_picks`, salt 0; 1,073,741,824 are all ids."
                .into(),
            head: row([
                "Servers",
                "ids",
                "worst server's error",
                "farthest above its \
            share",
                "archive's fill when that server is full",
            ]),
            rows,
        },
    );
}

pub fn run(setting: Setting, report: &mut Report) {
    tenth(setting, report);
    cause(setting, report);
    all_ids(setting, report);
}
