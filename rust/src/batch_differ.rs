//! One batch, run on the proved code and on the Rust implementation, and against its lookups made one
//! after another. Every word is compared.

use crate::archive::Table;
use crate::batch;
use crate::calls::{encode, Call, Reply, REFUSAL, REPLY_WORDS};
use crate::counters::{told_by_batch, Told};
use crate::differ::{compare_told, compare_words, Difference, Lent, Tally, UNREAD, UNSTORED};
use ticket_archive::{functions as proved, Archive};

/// Table, medium, tenant, ids, replies, order, mounts; answers the number of the list.
type Lookups = fn(&mut [u32], &[u32], u32, &[u32], &mut [u32], &mut [u32], &mut [u32]) -> u32;

/// How many words are lent for the answer.
#[derive(Clone, Copy, Debug)]
pub struct Room {
    pub replies: usize,
    pub order: usize,
    pub mounts: usize,
}

impl Room {
    /// Just enough for so many ids.
    pub fn of(ids: usize) -> Self {
        Room {
            replies: REPLY_WORDS * ids,
            order: ids,
            mounts: 1,
        }
    }
}

/// What one side answered and left.
struct Answered {
    number: u32,
    lent: [Vec<u32>; 3],
    replies: Vec<u32>,
    order: Vec<u32>,
    mounts: Vec<u32>,
}

fn answered(run: Lookups, mut lent: [Vec<u32>; 3], tenant: u32, room: Room) -> Answered {
    let mut replies = vec![UNSTORED; room.replies];
    let mut order = vec![UNSTORED; room.order];
    let mut mounts = vec![UNSTORED; room.mounts];
    let [table, medium, ids] = &mut lent;
    let number = run(
        table,
        medium,
        tenant,
        ids,
        &mut replies,
        &mut order,
        &mut mounts,
    );
    Answered {
        number,
        lent,
        replies,
        order,
        mounts,
    }
}

fn compare_answers(proved: &Answered, rust: &Answered) -> Result<(), Difference> {
    compare_words("number of the list", &[proved.number], &[rust.number])?;
    compare_words("replies", &proved.replies, &rust.replies)?;
    compare_words("order", &proved.order, &rust.order)?;
    compare_words("mounts", &proved.mounts, &rust.mounts)?;
    let names = ["table", "medium lent", "ids lent"];
    for (at, name) in names.into_iter().enumerate() {
        compare_words(name, &proved.lent[at], &rust.lent[at])?;
    }
    Ok(())
}

/// The same by the method of the safe archive, whose results are turned into words again.
fn by_method(
    table: &mut [u32],
    medium: &[u32],
    tenant: u32,
    ids: &[u32],
    replies: &mut [u32],
    order: &mut [u32],
    mounts: &mut [u32],
) -> u32 {
    let words = table.first_chunk_mut().expect("a whole table");
    let mut medium = medium.to_vec();
    let mut archive = Archive::from_words(*words, &mut medium);
    let answer = archive.lookup_batch(tenant, ids);
    *words = *archive.table();
    let batch = match answer {
        Ok(batch) => batch,
        Err(refusal) => return refusal as u32,
    };
    assert_eq!(batch.answers.len(), ids.len());
    for (words, answer) in replies.chunks_exact_mut(REPLY_WORDS).zip(batch.answers) {
        words.copy_from_slice(&Reply::from_typed(answer).words());
    }
    order[..ids.len()].copy_from_slice(&batch.order);
    mounts[0] = batch.mounts;
    0
}

impl Lent {
    /// Looks the ids up for a tenant on both sides, with so much room for the answer, and keeps the
    /// table that both left.
    pub fn run_batch(
        &mut self,
        tenant: u32,
        ids: &[u32],
        room: Room,
        tally: &mut Tally,
    ) -> Result<(), Difference> {
        self.run_batch_told(tenant, ids, room, tally).map(|_| ())
    }

    /// The same; answers what was replied to the ids.
    pub fn run_batch_told(
        &mut self,
        tenant: u32,
        ids: &[u32],
        room: Room,
        tally: &mut Tally,
    ) -> Result<Vec<Told>, Difference> {
        let answered = |run: Lookups| {
            let lent = [self.table.clone(), self.medium.clone(), ids.to_vec()];
            answered(run, lent, tenant, room)
        };
        let proved = answered(proved::lookup_batch);
        let rust = answered(batch::lookup_batch);
        tally.count_batch(proved.number, ids.len(), &proved.replies);
        compare_answers(&proved, &rust)
            .and_then(|()| match proved.number {
                batch::SHORT => Ok(()),
                _ => compare_answers(&answered(by_method), &rust)
                    .map_err(|text| format!("by the method: {text}")),
            })
            .and_then(|()| match proved.number {
                0 => self.compare_single(tenant, ids, &proved),
                _ => compare_words("table of a refused batch", &proved.lent[0], &self.table),
            })
            .map_err(|text| self.described(text, tenant, ids, room))?;
        let told = match proved.number {
            0 => told_by_batch(tenant, &proved.replies[..REPLY_WORDS * ids.len()]),
            _ => Vec::new(),
        };
        tally.batch_cases.count_batch(&self.table, &told);
        let [table, ..] = proved.lent;
        self.table = table;
        Ok(told)
    }

    /// An accepted batch replies and leaves what its lookups do, made one after another by the
    /// proved code, and the counters that its replies say.
    fn compare_single(&self, tenant: u32, ids: &[u32], batch: &Answered) -> Result<(), Difference> {
        let lookup = |&id: &u32| Call::Lookup { tenant, id };
        let calls: Vec<Call> = ids.iter().map(lookup).collect();
        let (mut table, mut medium) = (self.table.clone(), self.medium.clone());
        let mut replies = vec![UNSTORED; REPLY_WORDS * ids.len()];
        let words = encode(&calls, UNREAD);
        proved::resume(&mut table, &words, &mut medium, &mut replies);
        let [left, ..] = &batch.lent;
        compare_words(
            "replies, lookups in the place of Rust",
            &batch.replies[..replies.len()],
            &replies,
        )?;
        compare_words("table, lookups in the place of Rust", left, &table)?;
        compare_told(&self.table, &told_by_batch(tenant, &replies), left)
    }

    fn described(&self, text: Difference, tenant: u32, ids: &[u32], room: Room) -> Difference {
        let words = self.medium.len();
        let table = match self.table.first_chunk() {
            Some(words) => Table::from_words(words).described(),
            None => format!("a table of {} words", self.table.len()),
        };
        format!(
            "{text}\n{table}\n{words} words of medium, {room:?}\ntenant {tenant}, ids {ids:?}\nmedium {:?}\n",
            self.medium
        )
    }
}

impl Tally {
    fn count_batch(&mut self, number: u32, ids: usize, replies: &[u32]) {
        self.batches += 1;
        match number {
            0 => {
                self.batch_ids += ids as u64;
                for reply in replies.chunks_exact(REPLY_WORDS).take(ids) {
                    self.batch_refusals[reply[REFUSAL] as usize] += 1;
                }
            }
            1 | 2 => self.batches_refused[number as usize] += 1,
            _ => self.short_runs += 1,
        }
    }
}
