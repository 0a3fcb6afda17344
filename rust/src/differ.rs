//! One list of calls, run on the proved code and on the Rust implementation, and where the medium
//! began blank on the plain ledger too. Every reply and every word is compared.

use std::fmt::Write;

use crate::archive::{Table, BLANK, CONTENT_RANGE};
use crate::calls::{self, Call, CAPACITY, COUNT, COUNTERS, INVALIDATED, PARTS, REFUSAL};
use crate::calls::{REPLY_WORDS, SALT, TABLE_WORDS};
use crate::cases::Cases;
use crate::counters::{self, Told};
use crate::crash_cases::CrashCases;
use crate::image_cases::ImageCases;
use crate::ledger::Ledger;
use crate::placement::{self, MAX_SERVERS, SALT_RANGE};
use crate::random::Random;
use crate::salts::BySalt;
use ticket_archive::functions as proved;

/// Where two sides differ, in words for the reader.
pub type Difference = String;

/// What was met so far, by the proved code's replies.
#[derive(Default)]
pub struct Tally {
    pub lists: u64,
    pub calls: u64,
    pub accepted: u64,
    pub refusals: [u64; 12],
    pub no_calls: u64,
    /// The calls by the salt that they were made under, and those of lists that were not run, the
    /// salt being out of range.
    pub by_salt: BySalt,
    pub not_run: u64,
    pub picks: u64,
    /// Calls run one at a time, and the runs too short and the starts among them.
    pub single_calls: u64,
    pub short_runs: u64,
    pub starts: u64,
    pub batches: u64,
    /// Batches refused as a whole, by number.
    pub batches_refused: [u64; 3],
    /// The ids of the accepted batches, and how often each refusal was an id's; 0 is acceptance.
    pub batch_ids: u64,
    pub batch_refusals: [u64; 12],
    /// Pairs of histories with other neighbours in which all was accepted alike, and others.
    pub alike: u64,
    pub parted: u64,
    /// What was compared in such pairs: calls, and ids of batches.
    pub neighbours_calls: u64,
    pub neighbours_ids: u64,
    /// What was met about counters by lists and by batches, and the rounds made for it alone.
    pub cases: Cases,
    pub batch_cases: Cases,
    pub counting: u64,
    /// What was met about images.
    pub images: ImageCases,
    /// What was met about crashes.
    pub crashes: CrashCases,
}

impl Tally {
    /// A list run under a salt, by its replies.
    fn count(&mut self, salt: u32, replies: &[u32]) {
        self.lists += 1;
        let calls = replies.len() / REPLY_WORDS;
        self.by_salt.count(salt, calls as u64);
        for reply in replies.chunks_exact(REPLY_WORDS) {
            self.calls += 1;
            match reply[REFUSAL] {
                0 => self.accepted += 1,
                number @ 1..=11 => self.refusals[number as usize] += 1,
                _ => self.no_calls += 1,
            }
        }
    }

    /// A list run from a start with this salt, by its replies.
    fn count_replay(&mut self, salt: u32, list: &[Call], replies: &[u32]) {
        self.count(salt, replies);
        if salt >= SALT_RANGE {
            self.not_run += list.len() as u64;
        }
    }
}

/// Buffers hold this before a run, so that a word which should not be stored shows.
pub const UNSTORED: u32 = 0x5555_5555;

/// Words that a call should not read hold this.
pub const UNREAD: u32 = 0x3333_3333;

/// What one side left.
struct Outcome {
    ran: usize,
    replies: Vec<u32>,
    medium: Vec<u32>,
    table: Vec<u32>,
}

impl Outcome {
    fn replies_run(&self) -> &[u32] {
        &self.replies[..self.ran * REPLY_WORDS]
    }
}

/// A list as words, with room for replies; both may be cut short.
pub struct Encoded {
    words: Vec<u32>,
    room: usize,
}

impl Encoded {
    pub fn new(list: &[Call]) -> Self {
        Encoded {
            words: calls::encode(list, UNREAD),
            room: list.len() * REPLY_WORDS,
        }
    }

    /// The same with fewer words and less room.
    pub fn cut(mut self, words: usize, room: usize) -> Self {
        self.words.truncate(self.words.len().saturating_sub(words));
        self.room = self.room.saturating_sub(room);
        self
    }

    fn replay(&self, run: calls::Replay, capacity: u32, salt: u32, medium: &[u32]) -> Outcome {
        let mut medium = medium.to_vec();
        let mut replies = vec![UNSTORED; self.room];
        let ran = run(capacity, salt, &self.words, &mut medium, &mut replies);
        Outcome {
            ran,
            replies,
            medium,
            table: Vec::new(),
        }
    }

    fn resume(&self, run: calls::Resume, table: &[u32], medium: &[u32]) -> Outcome {
        let mut table = table.to_vec();
        let mut medium = medium.to_vec();
        let mut replies = vec![UNSTORED; self.room];
        let ran = run(&mut table, &self.words, &mut medium, &mut replies);
        Outcome {
            ran,
            replies,
            medium,
            table,
        }
    }
}

fn first_difference(proved: &[u32], rust: &[u32]) -> Option<usize> {
    (0..proved.len()).find(|&at| proved[at] != rust[at])
}

pub fn compare_words(what: &str, proved: &[u32], rust: &[u32]) -> Result<(), Difference> {
    match first_difference(proved, rust) {
        None => Ok(()),
        Some(at) => Err(format!(
            "{what}, word {at}: proved {}, Rust {}",
            proved[at], rust[at]
        )),
    }
}

fn compare_replies(proved: &[u32], rust: &[u32]) -> Result<(), Difference> {
    let (proved, _) = proved.as_chunks::<REPLY_WORDS>();
    let (rust, _) = rust.as_chunks::<REPLY_WORDS>();
    match (0..proved.len()).find(|&at| proved[at] != rust[at]) {
        None => Ok(()),
        Some(at) => Err(format!(
            "call {at}: proved {:?}, Rust {:?}",
            proved[at], rust[at]
        )),
    }
}

fn compare_outcomes(proved: &Outcome, rust: &Outcome) -> Result<(), Difference> {
    compare_replies(&proved.replies, &rust.replies)?;
    compare_words("replies", &proved.replies, &rust.replies)?;
    compare_words("medium", &proved.medium, &rust.medium)?;
    if let (Some(proved), Some(rust)) = (counters::of(&proved.table), counters::of(&rust.table)) {
        compare_words("counters", &proved, &rust)?;
    }
    compare_words(
        "table",
        &below_count(&proved.table),
        &below_count(&rust.table),
    )?;
    if proved.ran != rust.ran {
        return Err(format!(
            "calls run: proved {}, Rust {}",
            proved.ran, rust.ran
        ));
    }
    Ok(())
}

/// The words of a table that count: positions at or above its count are left out.
pub fn below_count(table: &[u32]) -> Vec<u32> {
    if table.len() < TABLE_WORDS {
        return table.to_vec();
    }
    let count = (table[COUNT] as usize).min(MAX_SERVERS);
    let mut words = table[..PARTS].to_vec();
    for part in table[PARTS..COUNTERS].chunks_exact(MAX_SERVERS) {
        words.extend(&part[..count]);
    }
    words.extend(&table[COUNTERS..]);
    words
}

/// The difference with what it takes to see it again.
fn described(
    text: Difference,
    [capacity, salt]: [u32; 2],
    medium: &[u32],
    list: &[Call],
) -> Difference {
    let mut out = format!(
        "{text}\ncapacity {capacity}, salt {salt}, {} words of medium\n",
        medium.len()
    );
    for (at, word) in medium.iter().enumerate().filter(|(_, &word)| word != BLANK) {
        writeln!(out, "medium word {at} was {word}").expect("a string");
    }
    for (at, call) in list.iter().enumerate() {
        writeln!(out, "{at}: {call:?}").expect("a string");
    }
    out
}

/// Runs `replay` on both sides, from a start with this capacity and salt on a medium as given.
pub fn run_replay(
    start: [u32; 2],
    medium: &[u32],
    list: &[Call],
    encoded: &Encoded,
    tally: &mut Tally,
) -> Result<(), Difference> {
    run_from_start(start, medium, list, encoded, tally)
        .map(|_| ())
        .map_err(|text| described(text, start, medium, list))
}

/// Runs `replay` on both sides from a start on a blank medium, and the ledger.
pub fn run_blank(
    start: [u32; 2],
    medium_len: usize,
    list: &[Call],
    tally: &mut Tally,
) -> Result<(), Difference> {
    let medium = vec![BLANK; medium_len];
    let [capacity, salt] = start;
    let mut ledger = Ledger::new(capacity, salt, medium_len);
    run_from_start(start, &medium, list, &Encoded::new(list), tally)
        .and_then(|proved| {
            compare_ledger(&mut ledger, list, proved.replies_run())?;
            compare_live(&proved.medium, ledger.writes())
        })
        .map_err(|text| described(text, start, &medium, list))
}

/// Runs `replay` on both sides, which gives no table back, and then the same calls by `resume` from
/// a started table; answers what the proved `replay` left.
fn run_from_start(
    [capacity, salt]: [u32; 2],
    medium: &[u32],
    list: &[Call],
    encoded: &Encoded,
    tally: &mut Tally,
) -> Result<Outcome, Difference> {
    let proved = encoded.replay(proved::replay, capacity, salt, medium);
    let rust = encoded.replay(calls::replay, capacity, salt, medium);
    tally.count_replay(salt, list, proved.replies_run());
    compare_outcomes(&proved, &rust)?;
    if let Ok(table) = Table::start(capacity, salt) {
        let mut started = vec![UNSTORED; TABLE_WORDS];
        proved::start(capacity, salt, &mut started);
        compare_words("started table", &started, &table.words())?;
        let resumed = encoded.resume(proved::resume, &started, medium);
        let rust = encoded.resume(calls::resume, &started, medium);
        compare_outcomes(&resumed, &rust)
            .and_then(|()| compare_counters(&started, list, &resumed))
            .map_err(|text| format!("by resume: {text}"))?;
        compare_words(
            "replies, resume in the place of Rust",
            &proved.replies,
            &resumed.replies,
        )?;
        compare_words(
            "medium, resume in the place of Rust",
            &proved.medium,
            &resumed.medium,
        )?;
        tally
            .cases
            .count_list(&started, list, resumed.replies_run());
    }
    Ok(proved)
}

/// The counters that a list left are those that its replies say.
fn compare_counters(before: &[u32], list: &[Call], left: &Outcome) -> Result<(), Difference> {
    let told = counters::told_by_list(list, left.replies_run());
    compare_told(before, &told, &left.table)
}

/// The counters of a table are those that lookups leave, by what was replied to them.
pub fn compare_told(before: &[u32], told: &[Told], left: &[u32]) -> Result<(), Difference> {
    let (Some(before), Some(left)) = (counters::of(before), counters::of(left)) else {
        return Ok(());
    };
    let expected = counters::after(before, told);
    compare_words(
        "counters, the replies in the place of Rust",
        &left,
        &expected,
    )
}

/// The ledger says nothing of invalidated entries.
fn compare_ledger(ledger: &mut Ledger, list: &[Call], replies: &[u32]) -> Result<(), Difference> {
    let replies = replies.chunks_exact(REPLY_WORDS);
    for (at, (&call, reply)) in list.iter().zip(replies).enumerate() {
        let mut expected = ledger.enter(call).words();
        expected[INVALIDATED] = reply[INVALIDATED];
        if *reply != expected {
            return Err(format!(
                "call {at}, {call:?}: proved {reply:?}, ledger {expected:?}"
            ));
        }
    }
    Ok(())
}

/// The live entries of all ids together are at most the accepted and the crashed writes.
pub fn compare_live(medium: &[u32], writes: usize) -> Result<(), Difference> {
    let is_live = |entry: &&[u32]| entry[0] < CONTENT_RANGE && entry[2] == BLANK;
    let live = medium.chunks_exact(3).filter(is_live).count();
    if live > writes {
        return Err(format!("{live} live entries after {writes} writes"));
    }
    Ok(())
}

/// A table and a medium that both sides resume from, and that a test may alter in between.
pub struct Lent {
    pub table: Vec<u32>,
    pub medium: Vec<u32>,
}

impl Lent {
    pub fn new(table: &Table, medium: Vec<u32>) -> Self {
        Lent {
            table: table.words().to_vec(),
            medium,
        }
    }

    /// The same, half of the time with other counters in range.
    pub fn counted(random: &mut Random, table: &Table, medium: Vec<u32>) -> Self {
        let mut lent = Lent::new(table, medium);
        counters::lend(random, &mut lent.table);
        lent
    }

    /// The capacity and the salt of the table lent, 0 where it is too short for them.
    fn start(&self) -> [u32; 2] {
        [CAPACITY, SALT].map(|at| self.table.get(at).copied().unwrap_or(0))
    }

    /// Runs `resume` on both sides and keeps what both left.
    pub fn run(&mut self, list: &[Call], tally: &mut Tally) -> Result<(), Difference> {
        self.run_told(list, tally).map(|_| ())
    }

    /// The same; answers what was replied to the lookups.
    pub fn run_told(&mut self, list: &[Call], tally: &mut Tally) -> Result<Vec<Told>, Difference> {
        let encoded = Encoded::new(list);
        let proved = encoded.resume(proved::resume, &self.table, &self.medium);
        let rust = encoded.resume(calls::resume, &self.table, &self.medium);
        let [_, salt] = self.start();
        tally.count(salt, proved.replies_run());
        compare_outcomes(&proved, &rust)
            .and_then(|()| compare_counters(&self.table, list, &proved))
            .map_err(|text| {
                let text = described(text, self.start(), &self.medium, list);
                format!("{text}table before: {:?}\n", below_count(&self.table))
            })?;
        let replies = proved.replies_run();
        tally.cases.count_list(&self.table, list, replies);
        let told = counters::told_by_list(list, replies);
        self.table = proved.table;
        self.medium = proved.medium;
        Ok(told)
    }
}

impl Lent {
    /// Runs a list by the proved `resume` and its calls in another way on the same words, and
    /// compares every word; what is lent is kept.
    pub fn run_by(
        &self,
        other: calls::Resume,
        list: &[Call],
        tally: &mut Tally,
    ) -> Result<(), Difference> {
        let encoded = Encoded::new(list);
        let whole = encoded.resume(proved::resume, &self.table, &self.medium);
        let single = encoded.resume(other, &self.table, &self.medium);
        tally.single_calls += single.ran as u64;
        compare_outcomes(&whole, &single)
            .and_then(|()| compare_words("whole table", &whole.table, &single.table))
            .map_err(|text| described(text, self.start(), &self.medium, list))
    }
}

/// Picks by the proved code and by the Rust implementation, with room for so many servers.
pub fn run_picks(
    weights: &[u32],
    salt: u32,
    ids: &[u32],
    room: usize,
    tally: &mut Tally,
) -> Result<(), Difference> {
    let mut ours = vec![UNSTORED; room];
    let mut theirs = ours.clone();
    let our_count = proved::picks(weights, salt, ids, &mut ours);
    let their_count = placement::picks(weights, salt, ids, &mut theirs);
    tally.picks += our_count as u64;
    compare_words("picks", &ours, &theirs)
        .and_then(|()| compare_words("picked", &[our_count as u32], &[their_count as u32]))
        .map_err(|text| format!("{text}\nweights {weights:?}\nsalt {salt}, ids {ids:?}\n"))
}
