//! Filing shares: source document 000's tables I and II, with ids in sequence, with ids scattered, and
//! with a good random number in place of the draw.

use std::time::Instant;

use super::chart::{Axis, Bars};
use super::filing::{drawn, errors, picked, worst};
use super::ideal::splitmix;
use super::ids::{in_sequence, scattered, Map, FACTOR, MAPS};
use super::report::{percent, row, size, Report, Setting, Table};
use super::scale::whole;
use super::store::{Fractions, Store};
use crate::random::Random;

/// Published in table I, in TB.
const TABLE_1: [f64; 6] = [99.683, 100.295, 100.119, 99.596, 100.142, 100.165];

/// Published in table II: the sum of a server's volumes, and the data written to it. The last server
/// is that of source document 001's table 2; 000 leaves it out.
const TABLE_2: [(f64, f64); 6] = [
    (5.695, 567_632.0),
    (5.611, 561_938.0),
    (3.298, 331_479.0),
    (1.660, 165_652.0),
    (2.031, 202_758.0),
    (1.021, 102_160.0),
];

/// The weight that stands for a volume of 1.0 in table II.
const UNIT: u32 = 65_536;

/// The first number that a seed files: seeds begin at different tenants.
fn first_number(setting: Setting) -> u64 {
    u64::from((setting.seed as u32).wrapping_sub(1) % 8) << 27
}

/// The rows of table I, in TB, and the largest errors below them.
fn rows_1(columns: &[Vec<u64>], tb: impl Fn(u64) -> f64) -> Vec<Vec<String>> {
    let line = |(server, published): (usize, &f64)| {
        let measured = columns.iter().map(|counts| tb(counts[server]));
        let volumes = [*published].into_iter().chain(measured);
        let cells = volumes.map(|volume| format!("{volume:.3}"));
        [server.to_string()].into_iter().chain(cells).collect()
    };
    let published = TABLE_1.map(|volume| volume - 100.0);
    let measured = columns
        .iter()
        .map(|counts| worst(&errors(&[1; 6], counts)).1);
    let largest = [worst(&published).1].into_iter().chain(measured).map(size);
    let largest = ["largest error".to_string()].into_iter().chain(largest);
    TABLE_1
        .iter()
        .enumerate()
        .map(line)
        .chain([largest.collect()])
        .collect()
}

/// Table I: six servers of 100 TB, 600,000 data of 1 GB.
fn table_1(setting: Setting, report: &mut Report) {
    let began = Instant::now();
    let data = setting.either(600_000, 60_000);
    let numbers = first_number(setting)..first_number(setting) + data;
    let by_map = |(_, map): &(&str, Map)| picked(&[1; 6], *map, numbers.clone());
    let control = drawn(&[1; 6], splitmix, numbers.clone());
    let columns: Vec<Vec<u64>> = MAPS.iter().map(by_map).chain([control]).collect();
    let tb = |count: u64| count as f64 * 600.0 / data as f64;
    let table = Table {
        name: "table-1",
        seeded: true,
        set_up: format!(
            "{} ids over 6 servers of one weight, 100 TB each, an id being 1 GB; `archive_picks`, salt 0; \
             scattered ids are the same numbers times {FACTOR} modulo 2^30, or modulo 2^27 with the \
             tenant's bits kept; the control is the same rule in plain Rust with splitmix64 over id and \
             server as RAND.",
            whole(data)
        ),
        head: row([
            "Server",
            "published, TB",
            "in sequence, TB",
            "scattered, TB",
            "scattered within a tenant, TB",
            "control, TB",
        ]),
        rows: rows_1(&columns, tb),
    };
    report.table(setting, began, table);
    report.picture("table-1", picture_1(&columns, tb));
}

/// Table I as a picture: what each server has, published and by each kind of ids.
fn picture_1(columns: &[Vec<u64>], tb: impl Fn(u64) -> f64) -> String {
    let published = TABLE_1.iter().map(|&volume| Some(volume - 100.0)).collect();
    let names = MAPS.iter().map(|(name, _)| *name).chain(["control"]);
    let measured = names.zip(columns).map(|(name, counts)| {
        let volumes = counts
            .iter()
            .map(|&count| Some(tb(count) - 100.0))
            .collect();
        (name.to_string(), volumes)
    });
    Bars {
        title: "Data on each of six equal servers, above or below 100 TB (table I)".into(),
        x_name: "server",
        y: Axis::linear("TB above 100 TB", [-4.0, 8.0]),
        groups: (0..6).map(|server| server.to_string()).collect(),
        series: [("published".to_string(), published)]
            .into_iter()
            .chain(measured)
            .collect(),
        shown: |_| String::new(),
    }
    .drawn()
}

/// The volumes of each of the ten rounds of table II.
fn volumes(random: &mut Random) -> Vec<Vec<u32>> {
    let servers = |round: usize| 2 + round / 2;
    let volumes = |round| (0..servers(round)).map(|_| random.below(UNIT)).collect();
    (0..10).map(volumes).collect()
}

/// What table II measures: for each server the sum of its weights, and the data written to it by
/// the ids in sequence, scattered, and by the control.
struct Varied {
    weights: [u64; 6],
    data: [[u64; 6]; 3],
}

/// Writes the rounds' data, 100,000 for each unit of volume, unless the scale is smaller.
fn varied(rounds: &[Vec<u32>], scale: u64, first: u64) -> Varied {
    let mut all = Varied {
        weights: [0; 6],
        data: [[0; 6]; 3],
    };
    let mut begin = first;
    for weights in rounds {
        let sum: u64 = weights.iter().map(|&weight| u64::from(weight)).sum();
        let numbers = begin..begin + sum * scale / u64::from(UNIT);
        let counts = [
            picked(weights, in_sequence, numbers.clone()),
            picked(weights, scattered, numbers.clone()),
            drawn(weights, splitmix, numbers.clone()),
        ];
        for (server, &weight) in weights.iter().enumerate() {
            all.weights[server] += u64::from(weight);
            for (data, counts) in all.data.iter_mut().zip(&counts) {
                data[server] += counts[server];
            }
        }
        begin = numbers.end;
    }
    all
}

/// WriteP and ReadP after the rounds' weights were set one after another in an archive.
fn final_fractions(rounds: &[Vec<u32>]) -> Vec<Fractions> {
    let mut store = Store::with_servers(UNIT, 2, 6, 0);
    for (round, weights) in rounds.iter().enumerate() {
        if weights.len() > 2 + round.saturating_sub(1) / 2 {
            store.add_server(0);
        }
        store.reweight_all(weights);
    }
    store.fractions()
}

/// The errors of table II: those published, and those of each kind of ids.
fn errors_2(all: &Varied, scale: u64) -> [[f64; 6]; 4] {
    let error = |data: u64, weight: u64| {
        100.0 * (data as f64 * f64::from(UNIT) / (weight as f64 * scale as f64) - 1.0)
    };
    let of = |kind: usize| {
        [0, 1, 2, 3, 4, 5].map(|server| error(all.data[kind][server], all.weights[server]))
    };
    let published = TABLE_2.map(|(volume, data)| 100.0 * (data / (volume * 100_000.0) - 1.0));
    [published, of(0), of(1), of(2)]
}

/// The rows of table II, and the largest errors below them.
fn rows_2(all: &Varied, fractions: &[Fractions], errors: &[[f64; 6]; 4]) -> Vec<Vec<String>> {
    let line = |server: usize| {
        let (volume, data) = TABLE_2[server];
        let ours = all.weights[server] as f64 / f64::from(UNIT);
        let [published, sequence, scattered, control] =
            errors.map(|errors| percent(errors[server]));
        vec![
            server.to_string(),
            format!("{volume:.3}, {}", whole(data as u64)),
            published,
            format!(
                "{:.2}, {:.2}",
                fractions[server].write, fractions[server].read
            ),
            format!("{ours:.3}, {}", whole(all.data[0][server])),
            sequence,
            scattered,
            control,
        ]
    };
    let [published, sequence, scattered, control] = errors.map(|errors| size(worst(&errors).1));
    let largest = [
        "largest error",
        "",
        &published,
        "",
        "",
        &sequence,
        &scattered,
        &control,
    ];
    (0..6).map(line).chain([row(largest)]).collect()
}

/// Table II: volumes drawn anew for each of ten rounds, two to six servers.
fn table_2(setting: Setting, report: &mut Report) {
    let began = Instant::now();
    let rounds = volumes(&mut Random::new(setting.seed));
    let scale = setting.either(100_000, 10_000);
    let all = varied(&rounds, scale, first_number(setting));
    let errors = errors_2(&all, scale);
    let table = Table {
        name: "table-2",
        seeded: true,
        set_up: format!(
            "two servers at first, one more after every second round up to six; in each of ten rounds \
             every server gets a volume drawn from 0.0 up to 1.0 (a weight below {UNIT}), and {} ids for \
             each 1.0 of volume are filed by `archive_picks`. The published volumes of the rounds are not \
             known, so ours are other ones and only the errors can be compared. Server 5's published numbers are \
             those of 001's table 2; 000's text leaves that row out.",
            whole(scale)
        ),
        head: row([
            "Server",
            "published volume, data",
            "published error",
            "final WriteP, ReadP",
            "our volume, data in sequence",
            "in sequence",
            "scattered",
            "control",
        ]),
        rows: rows_2(&all, &final_fractions(&rounds), &errors),
    };
    report.table(setting, began, table);
}

pub fn run(setting: Setting, report: &mut Report) {
    table_1(setting, report);
    table_2(setting, report);
}
