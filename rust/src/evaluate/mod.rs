//! The published results of source documents 000, 001 and 003, reproduced with the proved code:
//! what docs/EVALUATION.md tells.

mod asura;
mod chart;
mod cost_scenes;
mod costs;
mod decisions;
mod filing;
mod fill;
mod fit;
mod growth;
mod growth_control;
mod growth_figures;
mod growth_model;
mod ideal;
mod ids;
mod invalidations;
mod many_servers;
mod moved;
mod newest;
mod reads;
mod report;
mod ring;
mod scale;
mod shares;
mod store;
mod svg;

use std::path::Path;
use std::process::ExitCode;
use std::time::Instant;

pub use report::Setting;

/// An experiment and its name.
type Experiment = (&'static str, fn(Setting, &mut report::Report));

const EXPERIMENTS: [Experiment; 10] = [
    ("growth", growth_figures::run),
    ("invalidations", invalidations::run),
    ("newest", newest::run),
    ("shares", shares::run),
    ("many-servers", many_servers::run),
    ("fill", fill::run),
    ("moved", moved::run),
    ("decisions", decisions::run),
    ("reads", reads::run),
    ("costs", costs::run),
];

/// Experiments that are run only if they are named.
const ON_DEMAND: [Experiment; 1] = [("whole", many_servers::run_whole)];

/// Runs the experiments, or the one that is named; then writes the document's tables and pictures of
/// what was run, if a folder for them is given.
pub fn run(setting: Setting, only: Option<&str>, docs: Option<&Path>) -> ExitCode {
    let began = Instant::now();
    let mut report = report::Report::default();
    let asked = |(name, _): &&Experiment| only.is_none_or(|only| only == *name);
    let on_demand = ON_DEMAND.iter().filter(|(name, _)| only == Some(name));
    let asked: Vec<&Experiment> = EXPERIMENTS.iter().filter(asked).chain(on_demand).collect();
    if asked.is_empty() {
        let names = EXPERIMENTS.iter().chain(&ON_DEMAND).map(|(name, _)| *name);
        eprintln!(
            "the experiments are {}",
            names.collect::<Vec<_>>().join(", ")
        );
        return ExitCode::from(2);
    }
    for (_, run) in asked {
        run(setting, &mut report);
    }
    println!("{:.0} s in all", began.elapsed().as_secs_f64());
    if let Some(docs) = docs {
        if let Err(error) = report.write(docs) {
            println!("FAILED: {}: {error}", docs.display());
            return ExitCode::FAILURE;
        }
    }
    match report.is_good() {
        true => ExitCode::SUCCESS,
        false => ExitCode::FAILURE,
    }
}
