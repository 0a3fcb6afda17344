//! How the cost of calls grows with entries and servers: a model of so many ns a call, a server and
//! an entry, fitted to what was timed; and how fast the entries are gone over.

use std::time::Instant;

use super::chart::{Axis, Chart, Series, COLORS};
use super::cost_scenes::{Cost, Kind, Scene, KINDS};
use super::fit;
use super::report::{row, Report, Setting, Table, MACHINE};
use super::scale::whole;
use super::svg::Mark;
use crate::random::Random;

const SERVERS: [usize; 5] = [1, 4, 16, 64, 256];
const ENTRIES: [u32; 5] = [64, 512, 4_096, 16_384, 65_024];

/// The most entries of all servers together, and those up to which the model is fitted: 0.8 MB, which
/// caches hold. Beyond them the memory sets the pace.
const MOST: usize = 1 << 21;
const CACHED: usize = 1 << 16;

/// What was timed of one kind of call: servers, entries, and the cost.
type Points = Vec<(usize, u32, Cost)>;

/// Whether the entries of all servers of a point fit in the caches.
fn is_cached((servers, entries, _): &(usize, u32, Cost)) -> bool {
    servers * *entries as usize <= CACHED
}

/// The factors of a kind: ns a call, a server and an entry.
struct Model {
    factors: [f64; 3],
}

impl Model {
    /// The factors that fit best, none of them below 0: a term that would be is left out.
    fn fitted(points: &Points) -> Self {
        let points: Points = points
            .iter()
            .filter(|point| is_cached(point))
            .copied()
            .collect();
        let values: Vec<f64> = points.iter().map(|(.., cost)| cost.ns).collect();
        let mut used = vec![0, 1, 2];
        loop {
            let terms = |cost: &Cost| [1.0, cost.servers, cost.entries];
            let line =
                |(.., cost): &(usize, u32, Cost)| used.iter().map(|&at| terms(cost)[at]).collect();
            let rows: Vec<Vec<f64>> = points.iter().map(line).collect();
            let fitted = fit::relative(&rows, &values).expect("servers and entries vary");
            match fitted.iter().position(|factor| *factor < 0.0) {
                Some(at) => {
                    used.remove(at);
                }
                None => {
                    let mut factors = [0.0; 3];
                    used.iter()
                        .zip(fitted)
                        .for_each(|(&at, factor)| factors[at] = factor);
                    return Model { factors };
                }
            }
        }
    }

    fn ns(&self, cost: &Cost) -> f64 {
        let [call, server, entry] = self.factors;
        call + server * cost.servers + entry * cost.entries
    }

    /// The least and the greatest ratio of what was timed to the model, within the caches or beyond.
    fn ratios(&self, points: &Points, cached: bool) -> [f64; 2] {
        let points = points.iter().filter(|point| is_cached(point) == cached);
        let ratios = points.map(|(.., cost)| cost.ns / self.ns(cost));
        ratios.fold([f64::MAX, 0.0], |[least, most], ratio| {
            [least.min(ratio), most.max(ratio)]
        })
    }
}

fn timed(setting: Setting) -> Vec<Points> {
    let mut random = Random::new(setting.seed);
    let mut points: Vec<Points> = KINDS.iter().map(|_| Vec::new()).collect();
    let most = setting.either(MOST as u64, 1 << 17) as usize;
    for servers in SERVERS {
        for entries in ENTRIES
            .into_iter()
            .filter(|&entries| servers * entries as usize <= most)
        {
            let scene = Scene::new(servers, entries, &mut random);
            for (points, (kind, _)) in points.iter_mut().zip(KINDS) {
                points.push((servers, entries, scene.cost(kind)));
            }
        }
    }
    points
}

fn ns(value: f64) -> String {
    match value < 100.0 {
        true => format!("{value:.1}"),
        false => whole(value.round() as u64),
    }
}

/// The factors of each kind of call.
fn model_table(models: &[Model], points: &[Points]) -> Table {
    let line = |((kind, model), points): ((&(Kind, &str), &Model), &Points)| {
        let ratios = [true, false].map(|cached| model.ratios(points, cached));
        let [call, server, entry] = model.factors;
        vec![
            kind.1.to_string(),
            format!("{call:.0}"),
            format!("{server:.2}"),
            format!("{entry:.3}"),
            format!("{:.2} to {:.2}", ratios[0][0], ratios[0][1]),
            format!("{:.2} to {:.2}", ratios[1][0], ratios[1][1]),
        ]
    };
    let machine = |text: &str| format!("{text} {MACHINE}");
    Table {
        name: "cost-model",
        seeded: true,
        set_up: format!(
            "archives of 1 to 256 servers of equal weights and 64 to 65,024 entries \
            used on each, up to {} in all, filled by hand and `archive_recover`; \
            lists of calls by `archive_resume`, batches by `archive_lookup_batch`, the best of \
            seven runs each. Servers are those whose draw is needed, entries those that are gone \
            over, \
            both counted for each call; least squares of the relative differences over the \
            archives of up to 65,536 entries in all (0.8 MB), which caches \
            hold.",
            whole(MOST as u64)
        ),
        head: vec![
            "Call".into(),
            machine("ns a call"),
            machine("ns a server"),
            machine(
                "ns an \
            entry",
            ),
            machine("timed over model"),
            machine("the same, larger archives"),
        ],
        rows: KINDS.iter().zip(models).zip(points).map(line).collect(),
    }
}

/// What was timed at each size beside the model.
fn points_table(models: &[Model], points: &[Points]) -> Table {
    let sizes = points[0].iter().enumerate();
    let line = |(at, (servers, entries, _)): (usize, &(usize, u32, Cost))| {
        let cells = points.iter().zip(models).map(|(points, model)| {
            let cost = points[at].2;
            format!("{} ({})", ns(cost.ns), ns(model.ns(&cost)))
        });
        let size = [servers.to_string(), whole(u64::from(*entries))];
        size.into_iter().chain(cells).collect()
    };
    let names = KINDS.iter().map(|(_, name)| format!("{name} {MACHINE}"));
    Table {
        name: "cost-points",
        seeded: true,
        set_up: "as above: ns a call timed, and in brackets by the model.".into(),
        head: row(["Servers", "entries a server"])
            .into_iter()
            .chain(names)
            .collect(),
        rows: sizes.map(line).collect(),
    }
}

/// Points and model of some kinds against the entries of a server.
fn picture(title: &str, kinds: &[Kind], models: &[Model], points: &[Points]) -> String {
    let mut series = Vec::new();
    let mut color = COLORS.iter();
    for &kind in kinds {
        let at = KINDS.iter().position(|one| one.0 == kind).expect("a kind");
        for servers in [1, 16, 256] {
            let color = color.next().expect("colours enough");
            let of: Points = points[at]
                .iter()
                .filter(|point| point.0 == servers)
                .copied()
                .collect();
            let name = match kind {
                Kind::Hit => "finds",
                Kind::Miss => "finds none",
                Kind::Write => "write",
                Kind::Delete => "delete",
                Kind::Batch => "batch, an id",
            };
            let plural = if servers == 1 { "" } else { "s" };
            let name = format!("{name}, {servers} server{plural}");
            let timed = of
                .iter()
                .map(|(_, entries, cost)| [f64::from(*entries), cost.ns])
                .collect();
            let model = of
                .iter()
                .map(|(_, entries, cost)| [f64::from(*entries), models[at].ns(cost)]);
            series.push(Series::line("", color, false, model.collect()));
            series.push(Series::points(&name, color, Mark::Dot, timed));
        }
    }
    Chart {
        title: format!("{title} {MACHINE}"),
        x: Axis::log("entries used on each server", 4.0, [48.0, 90_000.0]),
        y: Axis::log("ns a call", 10.0, [10.0, 1_000_000.0]),
        series,
    }
    .drawn()
}

/// Bytes a second of a lookup's scan, and of a plain sum over the same words.
fn scan_table(setting: Setting) -> Table {
    let mut random = Random::new(setting.seed);
    let sizes = [
        (1, 4_096),
        (1, 65_024),
        (256, setting.either(65_024, 4_096) as u32),
    ];
    let rows = sizes.map(|(servers, entries)| {
        let scene = Scene::new(servers, entries, &mut random);
        let [scan, sum] = scene.scan_speeds();
        vec![
            format!("{servers} of {} entries", whole(u64::from(entries))),
            format!("{:.1} MB", scene.bytes() as f64 / 1e6),
            format!("{:.1} GB/s", scan / 1e9),
            format!("{:.1} GB/s", sum / 1e9),
            format!("{:.2}", scan / sum),
        ]
    });
    let machine = |text: &str| format!("{text} {MACHINE}");
    Table {
        name: "scan",
        seeded: true,
        set_up: "lookups that find nothing, 12 bytes an entry gone over (every word of a block is \
            compared), against a plain sum of all words of the same medium."
            .into(),
        head: vec![
            "Servers".into(),
            "used entries".into(),
            machine(
                "scan of a \
            lookup",
            ),
            machine("plain sum"),
            machine("scan over sum"),
        ],
        rows: rows.to_vec(),
    }
}

pub fn run(setting: Setting, report: &mut Report) {
    let began = Instant::now();
    let points = timed(setting);
    let models: Vec<Model> = points.iter().map(Model::fitted).collect();
    report.table(setting, began, model_table(&models, &points));
    report.table(setting, began, points_table(&models, &points));
    let lookups = picture(
        "Lookups: timed (points) and model (lines)",
        &[Kind::Hit, Kind::Miss],
        &models,
        &points,
    );
    report.picture("cost-lookups", lookups);
    let changes = picture(
        "Writes and deletes: timed (points) and model (lines)",
        &[Kind::Write, Kind::Delete],
        &models,
        &points,
    );
    report.picture("cost-changes", changes);
    let batches = picture(
        "Lookups that find, alone and in batches: timed (points) and model (lines)",
        &[Kind::Hit, Kind::Batch],
        &models,
        &points,
    );
    report.picture("cost-batches", batches);
    let began = Instant::now();
    let table = scan_table(setting);
    report.table(setting, began, table);
}
