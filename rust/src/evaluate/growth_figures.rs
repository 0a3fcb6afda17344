//! Servers opened a read: source document 000's figures 2, 3 and 4.

use std::time::Instant;

use super::chart::{Axis, Chart, Series};
use super::growth::{mean, measured, Plan};
use super::growth_control::controlled;
use super::growth_model::{grown, Opened};
use super::ids::{in_sequence, scattered, Map, FACTOR};
use super::report::{row, Report, Setting, Table};
use super::scale::whole;
use super::svg::Mark;

/// The parts of the storage that are filled when it grows, in tenths.
const TENTHS: [u32; 10] = [0, 1, 2, 3, 4, 5, 6, 7, 8, 9];

/// A colour for each of them, from blue to red.
const SHADES: [&str; 10] = [
    "#08306b", "#2171b5", "#4eb3d3", "#1b9e77", "#66a61e", "#000000", "#e6ab02", "#e6550d",
    "#cb181d", "#67000d",
];

/// The most servers that the storage grows to.
const SERVERS: [usize; 9] = [1, 2, 4, 8, 16, 32, 64, 128, 256];

/// A figure of the source: its number, what it shows, what is published of it at 256 servers and
/// N = 0.5, in words and as a point, the highest value of its picture, and its part of what is
/// measured.
struct Figure {
    number: u32,
    region: &'static str,
    shows: &'static str,
    published: &'static str,
    point: f64,
    high: f64,
    part: fn(&Opened) -> Option<f64>,
}

const FIGURES: [Figure; 3] = [
    Figure {
        number: 2,
        region: "figure-2",
        shows: "readable servers of an id",
        published: "less than 11",
        point: 11.0,
        high: 24.0,
        part: |opened| Some(opened.readable),
    },
    Figure {
        number: 3,
        region: "figure-3",
        shows: "servers opened, ids written before growth ended",
        published: "less than 3",
        point: 3.0,
        high: 6.0,
        part: |opened| opened.before,
    },
    Figure {
        number: 4,
        region: "figure-4",
        shows: "servers opened, all ids",
        published: "1.98",
        point: 1.98,
        high: 5.0,
        part: |opened| Some(opened.all),
    },
];

/// All that was measured: a line for each part filled, a number for each most servers.
type Results = Vec<Vec<Opened>>;

fn shown(value: Option<f64>) -> String {
    value.map_or("no id".into(), |value| format!("{value:.2}"))
}

/// What is published of the figures, beside what was measured.
fn half_table(columns: &[Opened], set_up: String) -> Table {
    let row_of = |figure: &Figure| {
        let cells = columns.iter().map(|opened| shown((figure.part)(opened)));
        let name = format!("{}: {}", figure.number, figure.shows);
        [name, figure.published.into()]
            .into_iter()
            .chain(cells)
            .collect()
    };
    Table {
        name: "opened-half",
        seeded: false,
        set_up,
        head: row([
            "Figure, at N = 0.5 and 256 servers",
            "published",
            "ids in sequence",
            "ids scattered",
            "control",
            "by the rule alone",
        ]),
        rows: FIGURES.iter().map(row_of).collect(),
    }
}

/// One figure whole: measured, and by the rule alone at 256 servers.
fn figure_table(figure: &Figure, results: &Results, set_up: &str) -> Table {
    let most = SERVERS.map(|servers| servers.to_string());
    let head = ["N".to_string()].into_iter().chain(most);
    let rows = TENTHS.iter().zip(results).map(|(&tenths, line)| {
        let measured = line.iter().map(|opened| shown((figure.part)(opened)));
        let rule = (figure.part)(&grown(256, f64::from(tenths) / 10.0));
        let name = format!("0.{tenths}");
        [name]
            .into_iter()
            .chain(measured)
            .chain([shown(rule)])
            .collect()
    });
    Table {
        name: figure.region,
        seeded: true,
        set_up: set_up.into(),
        head: head.chain(["256, by the rule alone".to_string()]).collect(),
        rows: rows.collect(),
    }
}

/// The line by the rule alone and the measured points of one part filled.
fn part_series(figure: &Figure, tenths: u32, line: &[Opened]) -> [Series; 2] {
    let color = SHADES[tenths as usize];
    let most = (1..=8)
        .chain((12..64).step_by(4))
        .chain((64..=256).step_by(16));
    let rule = most.map(|servers| (servers, grown(servers, f64::from(tenths) / 10.0)));
    let rule = rule.filter_map(|(x, opened)| Some([x as f64, (figure.part)(&opened)?]));
    let points = SERVERS.iter().zip(line);
    let points = points.filter_map(|(&x, opened)| Some([x as f64, (figure.part)(opened)?]));
    let name = format!("N = 0.{tenths}");
    [
        Series::line("", color, false, rule.collect()),
        Series::points(&name, color, Mark::Dot, points.collect()),
    ]
}

/// Lines by the rule alone, points as measured, and what is published.
fn picture(figure: &Figure, results: &Results, of_half: &Opened) -> String {
    let parts = TENTHS.iter().zip(results);
    let mut series: Vec<Series> = parts
        .flat_map(|(&tenths, line)| part_series(figure, tenths, line))
        .filter(|series| {
            series
                .points
                .iter()
                .any(|point| point[0] >= 2.0 && point[1] <= figure.high)
        })
        .collect();
    let name = format!("published, N = 0.5: {}", figure.published);
    let larger = (figure.part)(of_half).map(|value| vec![[256.0, value]]);
    let of_larger = "N = 0.5, ten times the data";
    series.push(Series::points(
        of_larger,
        SHADES[5],
        Mark::Cross,
        larger.unwrap_or_default(),
    ));
    let point = vec![[256.0, figure.point]];
    series.push(Series::points(&name, "black", Mark::Diamond, point));
    let title = format!(
        "Figure {}: {} (points: measured; lines: by the rule alone)",
        figure.number, figure.shows
    );
    Chart {
        title,
        x: Axis::linear("most servers", [0.0, 264.0]),
        y: Axis::linear("servers an id", [0.0, figure.high]),
        series,
    }
    .drawn()
}

/// The storages of some parts filled.
fn lines(setting: Setting, step: u32, tenths: &[u32]) -> Results {
    let line = |tenths: u32| {
        let plan = |servers| Plan {
            servers,
            tenths,
            step,
            first: 0,
            map: in_sequence,
        };
        SERVERS.map(|servers| mean(plan(servers), setting)).to_vec()
    };
    tenths.iter().map(|&tenths| line(tenths)).collect()
}

/// All storages, in two threads: every second part each, since those that open many servers take
/// longest.
fn all(setting: Setting, step: u32) -> Results {
    let [even, odd] = std::thread::scope(|scope| {
        let start = |tenths: [u32; 5]| scope.spawn(move || lines(setting, step, &tenths));
        let threads = [start([0, 2, 4, 6, 8]), start([1, 3, 5, 7, 9])];
        threads.map(|thread| thread.join().expect("the experiment ends"))
    });
    even.into_iter()
        .zip(odd)
        .flat_map(|(even, odd)| [even, odd])
        .collect()
}

/// The point that is published, on ten times the data: ids in sequence, scattered, and the control.
fn half(step: u32) -> [Opened; 3] {
    let plan = |map: Map| Plan {
        servers: 256,
        tenths: 5,
        step,
        first: 0,
        map,
    };
    std::thread::scope(|scope| {
        let other = scope.spawn(move || measured(plan(scattered)));
        let sequence = measured(plan(in_sequence));
        let control = controlled(256, 5, step);
        [
            sequence,
            other.join().expect("the experiment ends"),
            control,
        ]
    })
}

pub fn run(setting: Setting, report: &mut Report) {
    let began = Instant::now();
    let step = setting.either(10_000, 100) as u32;
    let [sequence, scattered, control] = half(step);
    let set_up = format!(
        "servers grow by 100 TB up to 1 PB whenever the part N of the storage is filled, then the \
            storage is filled; 100 TB are {} data \
         where they are 100,000 in the published run. Where each datum goes is told by \
         `archive_picks`; one datum in {} is written to an archive of \
         the same weights and looked up in the end, since a server has 65,536 entries at most. A \
         server that is over-full is ignored, as in \
         the published run. Scattered ids are the same numbers times {FACTOR} modulo 2^30. The \
         control is plain Rust with splitmix64 as RAND; by the rule alone means expected values, \
         without scaling.",
        whole(u64::from(step)),
        step / 50
    );
    report.table(
        setting,
        began,
        half_table(&[sequence, scattered, control, grown(256, 0.5)], set_up),
    );
    let began = Instant::now();
    let step = setting.either(1_000, 100) as u32;
    let results = all(setting, step);
    for figure in &FIGURES {
        let set_up = format!(
            "as above, ids in sequence, 100 TB being {} data, of which one in {} is written to an archive; \
                each column is a most number of servers, and up to 8 servers it is the mean of several storages.",
            whole(u64::from(step)),
            (step / 50).max(1)
        );
        report.table(setting, began, figure_table(figure, &results, &set_up));
        report.picture(figure.region, picture(figure, &results, &sequence));
    }
}
