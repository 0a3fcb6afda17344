//! One input that is measured, and its two sides.

use std::hint::black_box;

use crate::archive::{tenant_of, Table, BLANK};
use crate::batch::MAX_IDS;
use crate::calls::{self, encode, Call, CALL_WORDS, REFUSAL, REPLY_WORDS, TABLE_WORDS};
use crate::image;
use ticket_archive::functions as proved;

/// Which of the two ways to do the same work.
#[derive(Clone, Copy, PartialEq, Eq)]
pub enum Side {
    First,
    Second,
}

/// Stores the write server of each id, and says how many it stored.
pub type Picker = fn(&[u32], u32, &[u32], &mut [u32]) -> usize;

enum Work {
    /// The write server of each id: proved, and in Rust by one of its ways.
    Picks {
        weights: Vec<u32>,
        salt: u32,
        ids: Vec<u32>,
        rust: Picker,
    },
    /// A list from a start on blank words: proved, and in Rust.
    Replay { start: [u32; 2], calls: Vec<u32> },
    /// A list on a table and a medium that are there: proved, and in Rust.
    Resume { table: Vec<u32>, calls: Vec<u32> },
    /// The same by the proved code alone: each call lent alone, and all in one list.
    Calls { table: Vec<u32>, calls: Vec<u32> },
    /// Lookups by the proved code alone: in batches of so many ids, and each lent alone.
    Batches {
        table: Vec<u32>,
        calls: Vec<u32>,
        size: usize,
    },
    /// The image of a table written again and again: proved, and in Rust.
    Encode { table: Vec<u32> },
    /// A table read from an image again and again: proved, and in Rust.
    Decode { words: Vec<u32> },
}

impl Work {
    /// The table that a run begins with, if it is lent one.
    fn table(&self) -> Option<&[u32]> {
        match self {
            Work::Resume { table, .. }
            | Work::Calls { table, .. }
            | Work::Batches { table, .. }
            | Work::Encode { table } => Some(table),
            _ => None,
        }
    }
}

/// An input, and the buffers that a run changes.
pub struct Scene {
    work: Work,
    /// What the medium holds before a run.
    before: Vec<u32>,
    table: Vec<u32>,
    medium: Vec<u32>,
    ids: Vec<u32>,
    answers: Vec<u32>,
    /// How many picks, calls or images one run makes.
    pub calls: usize,
}

impl Scene {
    pub fn picks(weights: Vec<u32>, salt: u32, ids: Vec<u32>, rust: Picker) -> Self {
        let calls = ids.len();
        let work = Work::Picks {
            weights,
            salt,
            ids,
            rust,
        };
        Scene::new(work, Vec::new(), calls, calls)
    }

    /// A list from a start with this capacity and salt.
    pub fn replay(start: [u32; 2], medium_len: usize, list: &[Call]) -> Self {
        let work = Work::Replay {
            start,
            calls: encode(list, 0),
        };
        let answers = list.len() * REPLY_WORDS;
        Scene::new(work, vec![BLANK; medium_len], answers, list.len())
    }

    pub fn resume(table: &Table, medium: Vec<u32>, list: &[Call]) -> Self {
        let work = Work::Resume {
            table: table.words().to_vec(),
            calls: encode(list, 0),
        };
        Scene::new(work, medium, list.len() * REPLY_WORDS, list.len())
    }

    /// The same, each call alone against all in one list.
    pub fn calls(table: &Table, medium: Vec<u32>, list: &[Call]) -> Self {
        let work = Work::Calls {
            table: table.words().to_vec(),
            calls: encode(list, 0),
        };
        Scene::new(work, medium, list.len() * REPLY_WORDS, list.len())
    }

    /// Lookups of one tenant's ids, in batches of so many against each alone.
    pub fn batches(table: &Table, medium: Vec<u32>, ids: &[u32], size: usize) -> Self {
        let list: Vec<Call> = ids.iter().map(|&id| Call::lookup(id)).collect();
        let work = Work::Batches {
            table: table.words().to_vec(),
            calls: encode(&list, 0),
            size,
        };
        let scene = Scene::new(work, medium, list.len() * REPLY_WORDS, list.len());
        Scene {
            ids: ids.to_vec(),
            ..scene
        }
    }

    /// The image of a table, written so many times.
    pub fn encode(table: &Table, times: usize) -> Self {
        let work = Work::Encode {
            table: table.words().to_vec(),
        };
        let words = image::image_words(table.count as usize);
        Scene::new(work, Vec::new(), words, times)
    }

    /// A table, read so many times from its image.
    pub fn decode(table: &Table, times: usize) -> Self {
        let words = image::encode(&table.words()).expect("sound");
        Scene::new(Work::Decode { words }, Vec::new(), TABLE_WORDS, times)
    }

    fn new(work: Work, before: Vec<u32>, answers: usize, calls: usize) -> Self {
        Scene {
            table: work.table().unwrap_or(&[]).to_vec(),
            work,
            medium: before.clone(),
            before,
            ids: Vec::new(),
            answers: vec![0; answers],
            calls,
        }
    }

    /// Puts every buffer back to what it held before the first run.
    pub fn clear(&mut self) {
        self.medium.copy_from_slice(&self.before);
        self.answers.fill(0);
        if let Some(table) = self.work.table() {
            self.table.copy_from_slice(table);
        }
    }

    pub fn run(&mut self, side: Side) -> usize {
        let (table, medium) = (&mut self.table, &mut self.medium);
        let answers = &mut self.answers;
        match (&self.work, side) {
            (
                Work::Picks {
                    weights,
                    salt,
                    ids,
                    rust,
                },
                side,
            ) => match side {
                Side::First => proved::picks(weights, *salt, ids, answers),
                Side::Second => rust(weights, *salt, ids, answers),
            },
            (Work::Replay { start, calls }, Side::First) => {
                let [capacity, salt] = *start;
                proved::replay(capacity, salt, calls, medium, answers)
            }
            (Work::Replay { start, calls }, Side::Second) => {
                let [capacity, salt] = *start;
                calls::replay(capacity, salt, calls, medium, answers)
            }
            (Work::Resume { calls, .. }, Side::First)
            | (Work::Calls { calls, .. }, Side::Second) => {
                proved::resume(table, calls, medium, answers)
            }
            (Work::Resume { calls, .. }, Side::Second) => {
                calls::resume(table, calls, medium, answers)
            }
            (Work::Calls { calls, .. }, Side::First)
            | (Work::Batches { calls, .. }, Side::Second) => {
                call_each(table, calls, medium, answers)
            }
            (Work::Batches { size, .. }, Side::First) => {
                look_up_all(table, medium, &self.ids, *size, answers)
            }
            (Work::Encode { .. }, Side::First) => {
                encode_all(proved::encode, table, answers, self.calls)
            }
            (Work::Encode { .. }, Side::Second) => {
                encode_all(image::encode_run, table, answers, self.calls)
            }
            (Work::Decode { words }, Side::First) => {
                decode_all(proved::decode, words, answers, self.calls)
            }
            (Work::Decode { words }, Side::Second) => {
                decode_all(image::decode_run, words, answers, self.calls)
            }
        }
    }

    /// Everything that a run leaves.
    pub fn left(&self) -> [Vec<u32>; 3] {
        [
            self.answers.clone(),
            self.table.clone(),
            self.medium.clone(),
        ]
    }

    /// How many calls were refused in the last run; images are not.
    pub fn refused(&self) -> usize {
        if matches!(
            self.work,
            Work::Picks { .. } | Work::Encode { .. } | Work::Decode { .. }
        ) {
            return 0;
        }
        let replies = self.answers.chunks_exact(REPLY_WORDS);
        replies.filter(|reply| reply[REFUSAL] != 0).count()
    }
}

/// A list by `archive_call`, table and medium lent anew for each call.
fn call_each(table: &mut [u32], calls: &[u32], medium: &mut [u32], replies: &mut [u32]) -> usize {
    let replies = replies.chunks_exact_mut(REPLY_WORDS);
    for (call, reply) in calls.chunks_exact(CALL_WORDS).zip(replies) {
        proved::call(table, medium, call, reply);
    }
    calls.len() / CALL_WORDS
}

/// Ids of the first one's tenant by `archive_lookup_batch`, so many at a time.
fn look_up_all(
    table: &mut [u32],
    medium: &[u32],
    ids: &[u32],
    size: usize,
    replies: &mut [u32],
) -> usize {
    let mut order = [0; MAX_IDS];
    let mut mounts = [0];
    let tenant = tenant_of(ids[0]);
    let replies = replies.chunks_mut(REPLY_WORDS * size);
    for (ids, replies) in ids.chunks(size).zip(replies) {
        proved::lookup_batch(table, medium, tenant, ids, replies, &mut order, &mut mounts);
    }
    ids.len()
}

/// The image of a table so many times; answers how many were accepted.
fn encode_all(
    encode: impl Fn(&[u32], &mut [u32], &mut [u32]) -> u32,
    table: &[u32],
    image: &mut [u32],
    times: usize,
) -> usize {
    let mut length = [0];
    let is_written = |_: &usize| encode(black_box(table), black_box(image), &mut length) == 0;
    (0..times).filter(is_written).count()
}

/// A table from an image so many times; answers how many were accepted.
fn decode_all(
    decode: impl Fn(&[u32], &mut [u32]) -> u32,
    words: &[u32],
    table: &mut [u32],
    times: usize,
) -> usize {
    let is_read = |_: &usize| decode(black_box(words), black_box(table)) == 0;
    (0..times).filter(is_read).count()
}
