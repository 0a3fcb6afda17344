//! Times both sides, and counts their instructions where valgrind is there.

use std::arch::global_asm;
use std::fs;
use std::hint::black_box;
use std::process::{Command, ExitCode};
use std::time::{Duration, Instant};

use crate::scene::{Scene, Side};
use crate::scenes::{Entry, Group, GROUPS};

// A tight loop can take twice the time where it lies across two cache lines. Builds that differ
// in this padding move the code of both sides, so that neither keeps a bad place.
global_asm!(
    ".pushsection .text.pad, \"axR\", @progbits",
    concat!(".skip ", env!("PAD")),
    ".popsection"
);

/// One run without the clearing of the buffers. Callgrind counts inside this function only.
#[no_mangle]
#[inline(never)]
pub fn measured_run(scene: &mut Scene, side: Side) -> usize {
    black_box(scene.run(black_box(side)))
}

/// The scenes of a group that are asked for.
fn asked<'a>(group: &'a Group, only: Option<&'a str>) -> impl Iterator<Item = &'a Entry> {
    let is_asked = move |entry: &&Entry| only.is_none_or(|only| only == entry.0);
    group.scenes.iter().filter(is_asked)
}

/// Runs one side some times, with nothing compared or timed: what callgrind looks at.
pub fn run_side(only: Option<&str>, side: Side, runs: u64) -> ExitCode {
    for (_, _, make) in GROUPS.iter().flat_map(|group| asked(group, only)) {
        let mut scene = make();
        for _ in 0..runs {
            scene.clear();
            measured_run(&mut scene, side);
        }
    }
    ExitCode::SUCCESS
}

/// Whether both sides leave the same; the first run of each, before anything is timed.
fn agree(scene: &mut Scene) -> bool {
    scene.clear();
    let first = measured_run(scene, Side::First);
    let left = scene.left();
    scene.clear();
    let second = measured_run(scene, Side::Second);
    first == scene.calls && first == second && left == scene.left()
}

fn timed(scene: &mut Scene, side: Side) -> Duration {
    scene.clear();
    let began = Instant::now();
    measured_run(scene, side);
    began.elapsed()
}

/// Nanoseconds for a call, by side.
#[derive(Clone, Copy)]
struct Times {
    first: f64,
    second: f64,
}

impl Times {
    fn better(self, other: Times) -> Times {
        Times {
            first: self.first.min(other.first),
            second: self.second.min(other.second),
        }
    }
}

/// The best of some runs of each side, taken in turns.
fn best(scene: &mut Scene, runs: u64) -> Times {
    let mut first = Duration::MAX;
    let mut second = Duration::MAX;
    for _ in 0..runs {
        first = first.min(timed(scene, Side::First));
        second = second.min(timed(scene, Side::Second));
    }
    let per_call = |time: Duration| time.as_nanos() as f64 / scene.calls as f64;
    Times {
        first: per_call(first),
        second: per_call(second),
    }
}

/// The best times so far by name, kept in a file from one build to the next.
struct Best<'a> {
    file: Option<&'a str>,
    lines: Vec<(String, Times)>,
}

impl<'a> Best<'a> {
    fn read(file: Option<&'a str>) -> Self {
        let text = file.and_then(|file| fs::read_to_string(file).ok());
        let lines = text.iter().flat_map(|text| text.lines());
        Best {
            file,
            lines: lines.filter_map(parse).collect(),
        }
    }

    /// The better of these times and those kept, which it keeps.
    fn with(&mut self, name: &str, times: Times) -> Times {
        match self.lines.iter_mut().find(|line| line.0 == name) {
            Some(line) => {
                line.1 = line.1.better(times);
                line.1
            }
            None => {
                self.lines.push((name.into(), times));
                times
            }
        }
    }

    fn write(&self) {
        let Some(file) = self.file else {
            return;
        };
        let line =
            |(name, times): &(String, Times)| format!("{name} {} {}\n", times.first, times.second);
        let text: String = self.lines.iter().map(line).collect();
        fs::write(file, text).expect("the file can be written");
    }
}

fn parse(line: &str) -> Option<(String, Times)> {
    let mut words = line.split(' ');
    let name = words.next()?.into();
    let first = words.next()?.parse().ok()?;
    let second = words.next()?.parse().ok()?;
    Some((name, Times { first, second }))
}

const TIME_HEAD: &str = "\
Nanoseconds for a call: the best run of each side, the sides taken in turns. Before each run the
medium and the table are put back and the replies zeroed, untimed.";

/// Prints a table for each group and a line for each scene: nanoseconds for a call on both sides
/// and the ratio. With a file, the best of this build and those that wrote the file before.
pub fn time_all(only: Option<&str>, runs: u64, file: Option<&str>) -> ExitCode {
    let mut kept = Best::read(file);
    println!("{TIME_HEAD}");
    for group in &GROUPS {
        let [one, other] = group.sides;
        println!();
        println!("| name           | what                                  | calls  | refused | {one:<7} | {other:<7} | ratio |");
        println!("|----------------|---------------------------------------|--------|---------|---------|---------|-------|");
        for (name, what, make) in asked(group, only) {
            let mut scene = make();
            if !agree(&mut scene) {
                println!("{name}: the sides differ");
                return ExitCode::FAILURE;
            }
            let (calls, refused) = (scene.calls, scene.refused());
            let Times { first, second } = kept.with(name, best(&mut scene, runs));
            let ratio = first / second;
            println!("| {name:<14} | {what:<37} | {calls:>6} | {refused:>7} | {first:>7.1} | {second:>7.1} | {ratio:>5.2} |");
        }
    }
    kept.write();
    ExitCode::SUCCESS
}

/// Instructions of one run, by callgrind; none where valgrind is not there.
fn instructions(name: &str, side: &str) -> Option<u64> {
    let program = std::env::current_exe().ok()?;
    let output = Command::new("valgrind")
        .args(["--tool=callgrind", "--callgrind-out-file=/dev/null"])
        .arg("--toggle-collect=measured_run")
        .arg(program)
        .args(["run", "--only", name, "--side", side, "--runs", "1"])
        .output()
        .ok()?;
    let text = String::from_utf8_lossy(&output.stderr).into_owned();
    let (_, count) = text.split_once("Collected :")?;
    count.split_whitespace().next()?.parse().ok()
}

/// Prints a table for each group and a line for each scene: instructions for a call on both sides
/// and the ratio.
pub fn count_all(only: Option<&str>) -> ExitCode {
    println!("Instructions for a call, by callgrind, the clearing of the buffers not counted.");
    for group in &GROUPS {
        let [one, other] = group.sides;
        println!();
        println!("| name           | {one:<8} | {other:<8} | ratio |");
        println!("|----------------|----------|----------|-------|");
        for (name, _, make) in asked(group, only) {
            let (Some(first), Some(second)) = (instructions(name, one), instructions(name, other))
            else {
                println!("valgrind is not there: not counted");
                return ExitCode::SUCCESS;
            };
            let calls = make().calls as u64;
            let ratio = first as f64 / second as f64;
            let (first, second) = (first / calls, second / calls);
            println!("| {name:<14} | {first:>8} | {second:>8} | {ratio:>5.2} |");
        }
    }
    ExitCode::SUCCESS
}
