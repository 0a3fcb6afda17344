//! Calls and replies as words, and lists of them run on the Rust implementation. The layout is
//! that of the proved functions: eight words a call, eight a reply, 1,035 a table.

use crate::archive::{tenant_of, Missed, Refusal, Table, ALL_BURNS, TENANTS};
use crate::placement::MAX_SERVERS;

/// A call's words: its number, a tenant, an id or a server, and a value or a weight; and for a body
/// the number of its burns. The others are not read.
pub const CALL_WORDS: usize = 8;
const NUMBER: usize = 0;
const TENANT: usize = 1;
const SUBJECT: usize = 2;
const AMOUNT: usize = 3;
const BURNS: usize = 6;

/// A reply's words; the other three are 0.
pub const REPLY_WORDS: usize = 8;
pub const REFUSAL: usize = 0;
const SERVER: usize = 1;
const VALUE: usize = 2;
pub const OPENED: usize = 4;
pub const INVALIDATED: usize = 5;

/// A table's words: its capacity, its salt, its count, four parts of a word for each server, which
/// are weights, used, numerators and denominators, and a counter for each tenant.
pub const TABLE_WORDS: usize = COUNTERS + TENANTS as usize;
pub const CAPACITY: usize = 0;
pub const SALT: usize = 1;
pub const COUNT: usize = 2;
pub const PARTS: usize = 3;
pub const COUNTERS: usize = table_word(4, 0);

/// Where the word of a server stands in one of the four parts.
pub const fn table_word(part: usize, server: usize) -> usize {
    PARTS + part * MAX_SERVERS + server
}

#[derive(Clone, Copy, Debug, PartialEq, Eq)]
pub enum Call {
    AddServer {
        weight: u32,
    },
    Reweight {
        server: u32,
        weight: u32,
    },
    Write {
        tenant: u32,
        id: u32,
        value: u32,
    },
    Delete {
        tenant: u32,
        id: u32,
    },
    Lookup {
        tenant: u32,
        id: u32,
    },
    /// A number that is no call.
    None {
        number: u32,
    },
}

impl Call {
    /// A write by the id's own tenant.
    pub fn write(id: u32, value: u32) -> Self {
        let tenant = tenant_of(id);
        Call::Write { tenant, id, value }
    }

    /// A delete by the id's own tenant.
    pub fn delete(id: u32) -> Self {
        let tenant = tenant_of(id);
        Call::Delete { tenant, id }
    }

    /// A lookup by the id's own tenant.
    pub fn lookup(id: u32) -> Self {
        let tenant = tenant_of(id);
        Call::Lookup { tenant, id }
    }

    /// Its number, and the tenant, the subject and the amount if it has them.
    fn parts(self) -> (u32, Option<u32>, Option<u32>, Option<u32>) {
        match self {
            Call::AddServer { weight } => (1, None, None, Some(weight)),
            Call::Reweight { server, weight } => (2, None, Some(server), Some(weight)),
            Call::Write { tenant, id, value } => (3, Some(tenant), Some(id), Some(value)),
            Call::Delete { tenant, id } => (4, Some(tenant), Some(id), None),
            Call::Lookup { tenant, id } => (5, Some(tenant), Some(id), None),
            Call::None { number } => (number, None, None, None),
        }
    }

    /// Its words; those that it does not read are `unread`.
    pub fn words(self, unread: u32) -> [u32; CALL_WORDS] {
        let (number, tenant, subject, amount) = self.parts();
        let mut words = [unread; CALL_WORDS];
        words[NUMBER] = number;
        words[TENANT] = tenant.unwrap_or(unread);
        words[SUBJECT] = subject.unwrap_or(unread);
        words[AMOUNT] = amount.unwrap_or(unread);
        words
    }

    /// The same with a number of burns.
    pub fn body_words(self, burns: u32, unread: u32) -> [u32; CALL_WORDS] {
        let mut words = self.words(unread);
        words[BURNS] = burns;
        words
    }

    pub fn from_words(words: [u32; CALL_WORDS]) -> Self {
        Self::from_parts(words[NUMBER], words[TENANT], words[SUBJECT], words[AMOUNT])
    }

    pub fn from_parts(number: u32, tenant: u32, subject: u32, amount: u32) -> Self {
        match number {
            1 => Call::AddServer { weight: amount },
            2 => Call::Reweight {
                server: subject,
                weight: amount,
            },
            3 => Call::Write {
                tenant,
                id: subject,
                value: amount,
            },
            4 => Call::Delete {
                tenant,
                id: subject,
            },
            5 => Call::Lookup {
                tenant,
                id: subject,
            },
            _ => Call::None { number },
        }
    }
}

/// The words of a list; those that a call does not read are `unread`.
pub fn encode(list: &[Call], unread: u32) -> Vec<u32> {
    list.iter().flat_map(|call| call.words(unread)).collect()
}

/// A refusal number or 0, and what the answer carries; the rest is 0.
#[derive(Clone, Copy, Debug, Default, PartialEq, Eq)]
pub struct Reply {
    pub refusal: u32,
    pub server: u32,
    pub value: u32,
    pub opened: u32,
    pub invalidated: u32,
}

impl Reply {
    pub const NO_CALL: Reply = Reply {
        refusal: u32::MAX,
        server: 0,
        value: 0,
        opened: 0,
        invalidated: 0,
    };

    pub fn refused(refusal: Refusal) -> Self {
        Reply {
            refusal: refusal as u32,
            ..Reply::default()
        }
    }

    /// The reply that a result of the safe archive's lookup stands for.
    pub fn from_typed(result: Result<ticket_archive::Found, ticket_archive::Missed>) -> Self {
        match result {
            Ok(found) => Reply {
                value: found.value,
                opened: found.opened,
                ..Reply::default()
            },
            Err(missed) => Reply {
                refusal: missed.refusal as u32,
                opened: missed.opened,
                ..Reply::default()
            },
        }
    }

    pub fn words(self) -> [u32; REPLY_WORDS] {
        let mut words = [0; REPLY_WORDS];
        words[REFUSAL] = self.refusal;
        words[SERVER] = self.server;
        words[VALUE] = self.value;
        words[OPENED] = self.opened;
        words[INVALIDATED] = self.invalidated;
        words
    }
}

impl From<Missed> for Reply {
    fn from(missed: Missed) -> Self {
        Reply {
            opened: missed.opened,
            ..Reply::refused(missed.refusal)
        }
    }
}

impl Table {
    pub fn from_words(words: &[u32; TABLE_WORDS]) -> Self {
        let part = |at: usize| -> [u32; MAX_SERVERS] {
            let part = &words[table_word(at, 0)..table_word(at + 1, 0)];
            part.try_into().expect("256")
        };
        Table {
            capacity: words[CAPACITY],
            salt: words[SALT],
            count: words[COUNT],
            weights: part(0),
            used: part(1),
            read_numerators: part(2),
            read_denominators: part(3),
            counters: words[COUNTERS..].try_into().expect("8"),
        }
    }

    pub fn store(&self, words: &mut [u32; TABLE_WORDS]) {
        words[CAPACITY] = self.capacity;
        words[SALT] = self.salt;
        words[COUNT] = self.count;
        let parts = [
            &self.weights,
            &self.used,
            &self.read_numerators,
            &self.read_denominators,
        ];
        let (words, counters) = words.split_at_mut(COUNTERS);
        for (words, part) in words[PARTS..].chunks_exact_mut(MAX_SERVERS).zip(parts) {
            words.copy_from_slice(part);
        }
        counters.copy_from_slice(&self.counters);
    }

    pub fn words(&self) -> [u32; TABLE_WORDS] {
        let mut words = [0; TABLE_WORDS];
        self.store(&mut words);
        words
    }

    pub fn run(&mut self, medium: &mut [u32], call: Call) -> Reply {
        let result = match call {
            Call::AddServer { weight } => self.add_server(medium, weight).map(|server| Reply {
                server,
                ..Reply::default()
            }),
            Call::Reweight { server, weight } => {
                self.reweight(server, weight).map(|server| Reply {
                    server,
                    ..Reply::default()
                })
            }
            Call::Write { .. } | Call::Delete { .. } => {
                return self.run_some(medium, call, ALL_BURNS)
            }
            Call::Lookup { tenant, id } => return self.run_lookup(medium, tenant, id),
            Call::None { .. } => return Reply::NO_CALL,
        };
        result.unwrap_or_else(Reply::refused)
    }

    /// A write or a delete with a number of burns; no other call has one.
    pub fn run_some(&mut self, medium: &mut [u32], call: Call, burns: u32) -> Reply {
        let result = match call {
            Call::Write { tenant, id, value } => {
                self.write(medium, tenant, id, value, burns)
                    .map(|written| Reply {
                        server: written.server,
                        invalidated: written.invalidated,
                        ..Reply::default()
                    })
            }
            Call::Delete { tenant, id } => {
                self.delete(medium, tenant, id, burns)
                    .map(|invalidated| Reply {
                        invalidated,
                        ..Reply::default()
                    })
            }
            _ => return Reply::NO_CALL,
        };
        result.unwrap_or_else(Reply::refused)
    }

    pub fn run_lookup(&mut self, medium: &[u32], tenant: u32, id: u32) -> Reply {
        match self.lookup(medium, tenant, id) {
            Ok(found) => Reply {
                value: found.value,
                opened: found.opened,
                ..Reply::default()
            },
            Err(missed) => missed.into(),
        }
    }

    /// Runs as many calls as the words hold and the replies have room for.
    fn run_all(&mut self, calls: &[u32], medium: &mut [u32], replies: &mut [u32]) -> usize {
        let calls = calls.as_chunks().0;
        let replies = replies.as_chunks_mut().0;
        for (&call, reply) in calls.iter().zip(replies.iter_mut()) {
            *reply = self.run(medium, Call::from_words(call)).words();
        }
        calls.len().min(replies.len())
    }
}

/// Capacity, salt, calls, medium, replies; answers how many calls ran.
pub type Replay = fn(u32, u32, &[u32], &mut [u32], &mut [u32]) -> usize;

/// Table, calls, medium, replies; answers how many calls ran.
pub type Resume = fn(&mut [u32], &[u32], &mut [u32], &mut [u32]) -> usize;

/// The Rust implementation behind the interface of the proved `replay`.
pub fn replay(
    capacity: u32,
    salt: u32,
    calls: &[u32],
    medium: &mut [u32],
    replies: &mut [u32],
) -> usize {
    match Table::start(capacity, salt) {
        Ok(mut table) => table.run_all(calls, medium, replies),
        Err(_) => 0,
    }
}

/// The Rust implementation behind the interface of the proved `resume`.
pub fn resume(table: &mut [u32], calls: &[u32], medium: &mut [u32], replies: &mut [u32]) -> usize {
    let Some(words) = table.first_chunk_mut() else {
        return 0;
    };
    let mut table = Table::from_words(words);
    let ran = table.run_all(calls, medium, replies);
    table.store(words);
    ran
}
