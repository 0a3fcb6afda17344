//! A batch of lookups in ordinary Rust, from the first two requests and the fifth of document 02:
//! each id is looked up alone, which counts what it opens, and the mounts and the order of finding
//! come from the servers that it opens.

use std::collections::BTreeSet;

use crate::archive::{Refusal, Table};
use crate::calls::{Reply, REPLY_WORDS};
use crate::placement::MAX_SERVERS;

pub const MAX_IDS: usize = 256;

/// The answer to a run of words that is too short.
pub const SHORT: u32 = 4_294_967_294;

pub struct Batch {
    pub replies: Vec<Reply>,
    pub order: Vec<usize>,
    pub mounts: usize,
}

impl Table {
    /// Only a list that is too long is refused as a whole, by the lowest number that applies.
    pub fn lookup_batch(
        &mut self,
        medium: &[u32],
        tenant: u32,
        ids: &[u32],
    ) -> Result<Batch, Refusal> {
        if ids.len() > MAX_IDS {
            return Err(match self.is_sound() {
                true => Refusal::OutOfRange,
                false => Refusal::Unsound,
            });
        }
        let reply = |&id: &u32| self.run_lookup(medium, tenant, id);
        let replies = ids.iter().map(reply).collect();
        let opens = |&id: &u32| self.opens(medium, tenant, id);
        let opened: Vec<Vec<usize>> = ids.iter().map(opens).collect();
        let mut order: Vec<usize> = (0..ids.len()).collect();
        // This sort keeps equals in the order of their positions.
        order.sort_by_key(|&at| rank(opened[at].last()));
        let mounted: BTreeSet<usize> = opened.into_iter().flatten().collect();
        Ok(Batch {
            replies,
            order,
            mounts: mounted.len(),
        })
    }
}

/// How early an id is found, by the server where its search ends: none first, then the highest.
fn rank(end: Option<&usize>) -> usize {
    end.map_or(0, |server| MAX_SERVERS - server)
}

/// The Rust implementation behind the interface of the proved `lookup_batch`.
pub fn lookup_batch(
    table: &mut [u32],
    medium: &[u32],
    tenant: u32,
    ids: &[u32],
    replies: &mut [u32],
    order: &mut [u32],
    mounts: &mut [u32],
) -> u32 {
    let n = ids.len();
    let Some(table_words) = table.first_chunk_mut() else {
        return SHORT;
    };
    if replies.len() < REPLY_WORDS * n || order.len() < n || mounts.is_empty() {
        return SHORT;
    }
    let mut table = Table::from_words(table_words);
    let batch = match table.lookup_batch(medium, tenant, ids) {
        Ok(batch) => batch,
        Err(refusal) => return refusal as u32,
    };
    table.store(table_words);
    for (words, reply) in replies.chunks_exact_mut(REPLY_WORDS).zip(&batch.replies) {
        words.copy_from_slice(&reply.words());
    }
    for (word, &at) in order.iter_mut().zip(&batch.order) {
        *word = at as u32;
    }
    mounts[0] = batch.mounts as u32;
    0
}
