//! An archive of an experiment: a table and a medium of its own, run by the exported functions.

use crate::calls::{self, Call, CALL_WORDS, REPLY_WORDS};
use ticket_archive::{functions as proved, image_words, server_words, BLANK, TABLE_WORDS};

/// How many calls are lent in one list.
const LIST: usize = 4_096;

/// The content of a word, below its tag.
const CONTENT: u32 = (1 << 30) - 1;

#[derive(Clone)]
pub struct Store {
    pub table: Vec<u32>,
    pub medium: Vec<u32>,
    capacity: u32,
    servers: usize,
}

/// What a call answered.
#[derive(Clone, Copy, Debug, PartialEq)]
pub struct Reply {
    pub refusal: u32,
    pub server: u32,
    pub value: u32,
    pub opened: u32,
    pub invalidated: u32,
}

impl Reply {
    fn from_words(words: &[u32]) -> Self {
        Reply {
            refusal: words[calls::REFUSAL],
            server: words[ticket_archive::reply::SERVER],
            value: words[ticket_archive::reply::VALUE],
            opened: words[calls::OPENED],
            invalidated: words[calls::INVALIDATED],
        }
    }
}

/// WriteP and ReadP of a server.
#[derive(Clone, Copy)]
pub struct Fractions {
    pub write: f64,
    pub read: f64,
}

impl Store {
    /// An archive of no server, with a medium that has room for so many, and salt 0.
    pub fn start(capacity: u32, room: usize) -> Self {
        let mut table = vec![0; TABLE_WORDS];
        let refusal = proved::start(capacity, 0, &mut table);
        assert_eq!(refusal, 0, "the capacity is in range");
        Store {
            table,
            medium: vec![BLANK; room * server_words(capacity)],
            capacity,
            servers: 0,
        }
    }

    /// The same with so many servers of one weight.
    pub fn with_servers(capacity: u32, servers: usize, room: usize, weight: u32) -> Self {
        let mut store = Store::start(capacity, room);
        for _ in 0..servers {
            store.add_server(weight);
        }
        store
    }

    /// Runs a list of calls; hands each reply with its place to `heard`.
    pub fn each(&mut self, list: &[Call], mut heard: impl FnMut(usize, Reply)) {
        let mut replies = vec![0; LIST.min(list.len()) * REPLY_WORDS];
        for (part, some) in list.chunks(LIST).enumerate() {
            let words: Vec<u32> = some.iter().flat_map(|call| call.words(0)).collect();
            assert_eq!(words.len(), some.len() * CALL_WORDS);
            let ran = proved::resume(&mut self.table, &words, &mut self.medium, &mut replies);
            assert!(ran >= some.len(), "the runs have room for every call");
            for (at, reply) in replies.chunks(REPLY_WORDS).take(some.len()).enumerate() {
                heard(part * LIST + at, Reply::from_words(reply));
            }
        }
    }

    /// Runs a list of calls.
    pub fn run(&mut self, list: &[Call]) -> Vec<Reply> {
        let mut replies = Vec::with_capacity(list.len());
        self.each(list, |_, reply| replies.push(reply));
        replies
    }

    /// The same for calls that have to be accepted.
    pub fn accepted(&mut self, list: &[Call]) -> Vec<Reply> {
        let replies = self.run(list);
        let refused = replies.iter().position(|reply| reply.refusal != 0);
        if let Some(at) = refused {
            panic!("{:?} answers {:?}", list[at], replies[at]);
        }
        replies
    }

    pub fn add_server(&mut self, weight: u32) {
        self.accepted(&[Call::AddServer { weight }]);
        self.servers += 1;
    }

    /// Gives every server another weight as if all changed at once. While some have their old weight
    /// and some the new one, a WriteP could be above both, and ReadP would keep it. So the weights
    /// fall to 0 from the highest server down, and then take their new value from server 0 up: each
    /// WriteP on the way is 0, an old one or a new one.
    pub fn reweight_all(&mut self, weights: &[u32]) {
        let zero = |server| Call::Reweight { server, weight: 0 };
        let down = (0..weights.len() as u32).rev().map(zero);
        let up = in_order(weights);
        let list: Vec<Call> = down.chain(up).collect();
        self.accepted(&list);
    }

    /// The same one after another from server 0 up, and nothing else.
    pub fn reweight_in_order(&mut self, weights: &[u32]) {
        let list: Vec<Call> = in_order(weights).collect();
        self.accepted(&list);
    }

    /// The image of its table, by the exported function.
    fn image(&self) -> Vec<u32> {
        let mut image = vec![0; image_words(self.servers)];
        let refusal = proved::encode(&self.table, &mut image, &mut [0]);
        assert_eq!(refusal, 0, "calls leave a sound table");
        image
    }

    /// WriteP and ReadP of each server.
    pub fn fractions(&self) -> Vec<Fractions> {
        let image = self.image();
        let mut sum = 0;
        let servers = image[2..].chunks(4).take(self.servers).enumerate();
        servers
            .map(|(server, words)| {
                let [weight, _, numerator, denominator] =
                    [0, 1, 2, 3].map(|at| words[at] & CONTENT);
                sum += weight;
                let write = match (server, weight) {
                    (0, _) => 1.0,
                    (_, 0) => 0.0,
                    _ => f64::from(weight) / f64::from(sum),
                };
                let read = f64::from(numerator) / f64::from(denominator);
                Fractions { write, read }
            })
            .collect()
    }

    /// Fills the medium by hand: the ids of each server, as writes would have left them, each with
    /// its own number as the value. `recover` then sets how many entries are used.
    pub fn fill(&mut self, ids: &[Vec<u32>]) {
        for (server, ids) in ids.iter().enumerate() {
            let begin = server * server_words(self.capacity);
            for (entry, &id) in ids.iter().enumerate() {
                self.medium[begin + 3 * entry] = id;
                self.medium[begin + 3 * entry + 1] = 1 << 30 | id;
            }
        }
        let refusal = proved::recover(&mut self.table, &self.medium);
        assert_eq!(refusal, 0, "the table is sound and the medium long enough");
    }
}

/// A reweight of each server, from server 0 up.
fn in_order(weights: &[u32]) -> impl Iterator<Item = Call> + '_ {
    let set = |(server, &weight): (usize, &u32)| Call::Reweight {
        server: server as u32,
        weight,
    };
    weights.iter().enumerate().map(set)
}

#[cfg(test)]
mod tests {
    use super::*;

    #[test]
    fn weights_changed_at_once_raise_no_fraction_above_old_and_new() {
        let (old, new) = ([10, 90, 50], [80, 20, 60]);
        let mut store = Store::with_servers(100, 3, 3, 0);
        store.reweight_all(&old);
        let before = store.fractions();
        store.reweight_all(&new);
        let after = store.fractions();
        for (before, after) in before.iter().zip(&after) {
            assert_eq!(after.read, before.write.max(after.write));
        }
        let mut other = Store::with_servers(100, 3, 3, 0);
        other.reweight_all(&old);
        other.reweight_in_order(&[5, 90, 50]);
        other.reweight_in_order(&[80, 20, 60]);
        assert!(other.fractions()[1].read > after[1].read);
    }

    #[test]
    fn a_medium_filled_by_hand_is_what_writes_leave() {
        let ids = [[7, 8], [1 << 29, 3]].map(|ids| ids.to_vec());
        let mut filled = Store::with_servers(4, 2, 2, 4);
        filled.fill(&ids);
        for id in ids.concat() {
            let [reply] = filled.run(&[Call::lookup(id)])[..] else {
                panic!("one call has one reply")
            };
            // An id stands where the test put it, so only a readable server finds it.
            assert!(reply.refusal == 8 || reply.value == id);
        }
        let mut written = Store::with_servers(4, 2, 2, 4);
        let reply = written.accepted(&[Call::write(7, 7)])[0];
        let at = reply.server as usize * server_words(4);
        let mut by_hand = Store::with_servers(4, 2, 2, 4);
        let mut ids = vec![Vec::new(); 2];
        ids[reply.server as usize].push(7);
        by_hand.fill(&ids);
        assert_eq!(by_hand.medium[at..at + 3], written.medium[at..at + 3]);
        assert_eq!(by_hand.table, written.table);
    }
}
