//! The proved archive against an independent Rust implementation: differential tests, times and
//! instruction counts; how far salts part archives; and the published results, reproduced.

mod archive;
mod batch;
mod batch_differ;
mod batch_suites;
mod bench;
mod blocks;
mod calls;
mod cases;
mod counters;
mod counting;
mod crash;
mod crash_cases;
mod crash_edges;
mod crash_trees;
mod crashes;
mod differ;
mod evaluate;
mod exhaustive;
mod fractions;
mod image;
mod image_cases;
mod image_differ;
mod image_suites;
mod image_tables;
mod image_words;
mod interface;
mod ledger;
mod lists;
mod neighbours;
#[cfg(test)]
mod paper_tests;
mod placement;
mod random;
mod rows;
mod salts;
mod scene;
mod scenes;
mod sharing;
mod suites;
mod unsalted;

use std::path::Path;
use std::process::ExitCode;
use std::time::Instant;

use cases::Kind;
use differ::{Difference, Tally};
use random::Random;
use scene::Side;
use suites::Suite;

/// The command's words, of which some are `--name VALUE`.
struct Options {
    words: Vec<String>,
}

impl Options {
    fn text(&self, name: &str) -> Option<&str> {
        let at = self.words.iter().position(|word| word == name)?;
        self.words.get(at + 1).map(String::as_str)
    }

    fn number(&self, name: &str, otherwise: u64) -> u64 {
        match self.text(name) {
            None => otherwise,
            Some(text) => text
                .parse()
                .unwrap_or_else(|_| panic!("{name} takes a number")),
        }
    }
}

const USAGE: &str = "\
compare test [--seed N] [--calls N] [--batches N] [--crashes N]
compare stop
compare salts
compare time [--only NAME] [--runs N] [--best FILE]
compare count [--only NAME]
compare evaluate [--seed N] [--quick] [--only NAME] [--docs FOLDER]
compare run [--only NAME] [--side proved|Rust|call|list|batch|calls] [--runs N]";

fn main() -> ExitCode {
    let options = Options {
        words: std::env::args().skip(1).collect(),
    };
    let only = options.text("--only");
    match options.words.first().map(String::as_str) {
        Some("test") => test(&options),
        Some("stop") => counting::to_the_stop(),
        Some("salts") => sharing::print(),
        Some("time") => {
            let runs = options.number("--runs", 10);
            bench::time_all(only, runs, options.text("--best"))
        }
        Some("count") => bench::count_all(only),
        Some("evaluate") => {
            let setting = evaluate::Setting {
                seed: options.number("--seed", 1),
                quick: options.words.iter().any(|word| word == "--quick"),
            };
            let otherwise = (!setting.quick).then_some("../docs");
            let docs = options.text("--docs").or(otherwise);
            evaluate::run(setting, only, docs.map(Path::new))
        }
        Some("run") => run(&options),
        _ => {
            eprintln!("{USAGE}");
            ExitCode::from(2)
        }
    }
}

fn run(options: &Options) -> ExitCode {
    let is_second = |side: &str| scenes::GROUPS.iter().any(|group| group.sides[1] == side);
    let side = match options.text("--side") {
        Some(side) if is_second(side) => Side::Second,
        _ => Side::First,
    };
    bench::run_side(options.text("--only"), side, options.number("--runs", 1))
}

fn test(options: &Options) -> ExitCode {
    let seed = options.number("--seed", 1);
    let calls = options.number("--calls", 4_000_000);
    let batches = options.number("--batches", 120_000);
    let crashes = options.number("--crashes", 1_000_000);
    println!(
        "seed {seed}, at least {calls} calls, {batches} batches and {crashes} crashes, and the exhaustive lists"
    );
    let began = Instant::now();
    let mut tally = Tally::default();
    let result = run_suites(seed, calls, &mut tally)
        .and_then(|()| run_interface(seed, calls, &mut tally))
        .and_then(|()| run_batches(seed, batches, &mut tally))
        .and_then(|()| run_neighbours(seed, calls, &mut tally))
        .and_then(|()| run_counting(seed, calls, &mut tally))
        .and_then(|()| run_images(seed, calls, &mut tally))
        .and_then(|()| run_crashes(seed, crashes, &mut tally));
    match result {
        Ok(()) => {
            report(&tally);
            println!("no difference in {:.1} s", began.elapsed().as_secs_f64());
            met_enough(&tally, calls, crashes)
        }
        Err(difference) => {
            println!(
                "DIFFERENCE (seed {seed}, calls {calls}, batches {batches}, crashes {crashes})\n{difference}"
            );
            ExitCode::FAILURE
        }
    }
}

/// Fails where a salt at an edge, or a case of the counters, of the images or of the crashes was not
/// met often enough for a difference to show.
fn met_enough(tally: &Tally, calls: u64, asked: u64) -> ExitCode {
    let salts = tally.by_salt.missed(calls);
    let lists = tally.cases.missed(Kind::Lists, calls);
    let ids = tally.batch_cases.missed(Kind::Batches, calls);
    let images = tally.images.missed(calls);
    let crashes = tally.crashes.missed(asked);
    if !salts.is_empty() {
        println!("TOO FEW CALLS under the salts {salts:?}");
    }
    if !lists.is_empty() {
        println!("TOO FEW LOOKUPS with {lists:?}");
    }
    if !ids.is_empty() {
        println!("TOO FEW IDS OF BATCHES with {ids:?}");
    }
    if !images.is_empty() {
        println!("TOO FEW IMAGES with {images:?}");
    }
    if !crashes.is_empty() {
        println!("TOO FEW CRASHES with {crashes:?}");
    }
    let met = [
        salts.len(),
        lists.len(),
        ids.len(),
        images.len(),
        crashes.len(),
    ];
    match met == [0; 5] {
        true => ExitCode::SUCCESS,
        false => ExitCode::FAILURE,
    }
}

/// Runs a suite until it has met so many of what is counted; answers how many it met.
fn run_suite(
    name: &str,
    suite: Suite,
    seed: u64,
    asked: u64,
    tally: &mut Tally,
    counted: fn(&Tally) -> u64,
) -> Result<u64, Difference> {
    let before = counted(tally);
    let mut round = 0;
    while counted(tally) - before < asked {
        let list_seed = seed.wrapping_mul(1 << 32).wrapping_add(round);
        suite(&mut Random::new(list_seed), tally)
            .map_err(|text| format!("{name}, list seed {list_seed}: {text}"))?;
        round += 1;
    }
    Ok(counted(tally) - before)
}

fn run_interface(seed: u64, calls: u64, tally: &mut Tally) -> Result<(), Difference> {
    let (name, asked) = ("one call at a time", calls / 5);
    let one_by_one = interface::one_by_one;
    let ran = run_suite(name, one_by_one, seed, asked, tally, |t| t.single_calls)?;
    println!("{name}: {ran} calls");
    let (name, asked) = ("too short runs", calls / 100);
    let ran = run_suite(name, interface::short_runs, seed, asked, tally, |t| {
        t.short_runs
    })?;
    println!("{name}: {ran}");
    Ok(())
}

fn run_batches(seed: u64, batches: u64, tally: &mut Tally) -> Result<(), Difference> {
    for (name, suite, share) in batch_suites::SUITES {
        let ran = run_suite(name, suite, seed, batches * share / 100, tally, |t| {
            t.batches
        })?;
        println!("{name}: {ran}");
    }
    Ok(())
}

fn run_neighbours(seed: u64, calls: u64, tally: &mut Tally) -> Result<(), Difference> {
    let (name, asked) = ("pairs of histories with other neighbours", calls / 100);
    let pair = neighbours::pair;
    let ran = run_suite(name, pair, seed, asked, tally, |t| t.alike + t.parted)?;
    println!("{name}: {ran}");
    Ok(())
}

fn run_counting(seed: u64, calls: u64, tally: &mut Tally) -> Result<(), Difference> {
    for (name, suite, share) in counting::SUITES {
        let asked = calls * share / 10_000;
        let ran = run_suite(name, suite, seed, asked, tally, |t| t.counting)?;
        println!("{name}: {ran} rounds");
    }
    Ok(())
}

fn run_images(seed: u64, calls: u64, tally: &mut Tally) -> Result<(), Difference> {
    for (name, suite, share) in image_suites::SUITES {
        let asked = calls * share / 10_000;
        let ran = run_suite(name, suite, seed, asked, tally, |t| t.images.run)?;
        println!("{name}: {ran}");
    }
    Ok(())
}

fn run_crashes(seed: u64, crashes: u64, tally: &mut Tally) -> Result<(), Difference> {
    for (name, suite, share, counted) in crashes::SUITES {
        let ran = run_suite(name, suite, seed, crashes * share / 100, tally, counted)?;
        println!("{name}: {ran}");
    }
    for (servers, depth) in [(2, 4), (3, 4)] {
        let before = tally.crashes.run;
        crash_trees::run(&mut Random::new(seed), servers, depth, tally)?;
        let ran = tally.crashes.run - before;
        println!("every crash of every list of {depth} on {servers} servers: {ran}");
    }
    Ok(())
}

fn run_suites(seed: u64, calls: u64, tally: &mut Tally) -> Result<(), Difference> {
    for (name, suite, share) in suites::SUITES {
        let ran = run_suite(name, suite, seed, calls * share / 100, tally, |t| t.calls)?;
        println!("{name}: {ran} calls");
    }
    for (servers, depth) in [(2, 5), (3, 4)] {
        let before = tally.calls;
        exhaustive::run(&mut Random::new(seed), servers, depth, tally)?;
        let ran = tally.calls - before;
        println!("every list of {depth} calls on {servers} servers: {ran} calls");
    }
    Ok(())
}

fn report(tally: &Tally) {
    println!("{} calls in {} lists", tally.calls, tally.lists);
    println!("accepted: {}", tally.accepted);
    for (number, met) in tally.refusals.iter().enumerate().skip(1) {
        println!("refusal {number}: {met}");
    }
    println!("no call: {}", tally.no_calls);
    println!("calls by salt: {}", tally.by_salt);
    println!("calls not run for their salt: {}", tally.not_run);
    println!("lookups and counters: {}", tally.cases);
    println!("ids of batches and counters: {}", tally.batch_cases);
    println!("picks: {}", tally.picks);
    println!("calls one at a time: {}", tally.single_calls);
    println!(
        "too short runs: {}, starts: {}",
        tally.short_runs, tally.starts
    );
    let [_, by_1, by_2] = tally.batches_refused;
    println!(
        "batches: {}, refused by 1: {by_1}, by 2: {by_2}",
        tally.batches
    );
    println!("ids of batches: {}", tally.batch_ids);
    for (number, &met) in tally
        .batch_refusals
        .iter()
        .enumerate()
        .filter(|met| *met.1 > 0)
    {
        println!("ids of batches answered {number}: {met}");
    }
    println!(
        "pairs of histories accepted alike: {}, not alike: {}",
        tally.alike, tally.parted
    );
    println!(
        "calls compared in pairs: {}, ids of batches compared: {}",
        tally.neighbours_calls, tally.neighbours_ids
    );
    println!("images: {}", tally.images);
    println!("crashes: {}", tally.crashes);
}
