//! The plain ledger of document 01 with the tenants, the salt and the crashes of document 02: fed the
//! capacity, the salt, the medium's length and the arguments of the calls, and nothing from a table.
//! From a medium it is fed two facts about each crashed call. Everything is worked out anew from its
//! lists.

use crate::archive::{Refusal, CONTENT_RANGE};
use crate::calls::{Call, Reply};
use crate::placement::{draw, Fraction, MAX_SERVERS};

#[derive(Clone)]
enum Event {
    Wrote {
        id: u32,
        value: u32,
        server: usize,
    },
    Deleted {
        id: u32,
    },
    /// A crashed write that does not show left an entry of a server not wholly blank.
    Spent {
        server: usize,
    },
}

/// What a crashed call left, by the medium.
#[derive(Clone, Copy)]
pub struct Left {
    /// The entry that a write was to go to is not wholly blank.
    pub touched: bool,
    /// A lookup after recover meets that entry; for a delete, it meets none.
    pub shows: bool,
}

/// The last write of an id that no delete followed.
struct Standing {
    value: u32,
    server: usize,
}

#[derive(Clone)]
pub struct Ledger {
    capacity: u32,
    salt: u32,
    medium_len: usize,
    weights: Vec<u32>,
    greatest: Vec<Fraction>,
    events: Vec<Event>,
    accepted_writes: usize,
    crashed_writes: usize,
}

impl Ledger {
    pub fn new(capacity: u32, salt: u32, medium_len: usize) -> Self {
        Ledger {
            capacity,
            salt,
            medium_len,
            weights: Vec::new(),
            greatest: Vec::new(),
            events: Vec::new(),
            accepted_writes: 0,
            crashed_writes: 0,
        }
    }

    /// The ledger's reply; it says nothing of invalidated entries.
    pub fn enter(&mut self, call: Call) -> Reply {
        match call {
            Call::AddServer { weight } => self.add_server(weight),
            Call::Reweight { server, weight } => self.reweight(server, weight),
            Call::Write { tenant, id, value } => self.write(tenant, id, value),
            Call::Delete { tenant, id } => self.delete(tenant, id),
            Call::Lookup { tenant, id } => self.lookup(tenant, id),
            Call::None { .. } => Reply::NO_CALL,
        }
    }

    /// A crashed call, and what it left. One that is refused leaves nothing.
    pub fn crash(&mut self, call: Call, left: Left) {
        match call {
            Call::Write { tenant, id, value } => {
                let Ok(server) = self.written_to(tenant, id, value) else {
                    return;
                };
                self.crashed_writes += 1;
                match left {
                    Left { shows: true, .. } => {
                        self.events.push(Event::Wrote { id, value, server })
                    }
                    Left { touched: true, .. } => self.events.push(Event::Spent { server }),
                    _ => {}
                }
            }
            Call::Delete { tenant, id } if left.shows => {
                self.delete(tenant, id);
            }
            _ => {}
        }
    }

    /// The server and the entry that a write would go to, if it is not refused.
    pub fn target(&self, call: Call) -> Option<(usize, usize)> {
        let Call::Write { tenant, id, value } = call else {
            return None;
        };
        let server = self.written_to(tenant, id, value).ok()?;
        Some((server, self.used(server) as usize))
    }

    /// The accepted and the crashed writes together.
    pub fn writes(&self) -> usize {
        self.accepted_writes + self.crashed_writes
    }

    fn add_server(&mut self, weight: u32) -> Reply {
        let server = self.weights.len();
        if weight > self.capacity {
            return Reply::refused(Refusal::OutOfRange);
        }
        if server == MAX_SERVERS {
            return Reply::refused(Refusal::TooManyServers);
        }
        if self.is_short(server + 1) {
            return Reply::refused(Refusal::ShortMedium);
        }
        self.weights.push(weight);
        self.greatest.push(self.write_p(server));
        Reply {
            server: server as u32,
            ..Reply::default()
        }
    }

    fn reweight(&mut self, server: u32, weight: u32) -> Reply {
        if weight > self.capacity {
            return Reply::refused(Refusal::OutOfRange);
        }
        if server as usize >= self.weights.len() {
            return Reply::refused(Refusal::NoSuchServer);
        }
        if weight > self.capacity - self.used(server as usize) {
            return Reply::refused(Refusal::OverFree);
        }
        self.weights[server as usize] = weight;
        for k in 0..self.weights.len() {
            let today = self.write_p(k);
            if today.is_above(self.greatest[k]) {
                self.greatest[k] = today;
            }
        }
        Reply {
            server,
            ..Reply::default()
        }
    }

    /// The server that a write goes to.
    fn written_to(&self, tenant: u32, id: u32, value: u32) -> Result<usize, Refusal> {
        if value >= CONTENT_RANGE {
            return Err(Refusal::OutOfRange);
        }
        if let Some(refusal) = not_asked(tenant, id).or(self.no_medium()) {
            return Err(refusal);
        }
        let server = self.write_server(id);
        match self.used(server) == self.capacity {
            true => Err(Refusal::ServerFull),
            false => Ok(server),
        }
    }

    fn write(&mut self, tenant: u32, id: u32, value: u32) -> Reply {
        match self.written_to(tenant, id, value) {
            Ok(server) => {
                self.accepted_writes += 1;
                self.events.push(Event::Wrote { id, value, server });
                Reply {
                    server: server as u32,
                    ..Reply::default()
                }
            }
            Err(refusal) => Reply::refused(refusal),
        }
    }

    fn delete(&mut self, tenant: u32, id: u32) -> Reply {
        if let Some(refusal) = not_asked(tenant, id).or(self.no_medium()) {
            return Reply::refused(refusal);
        }
        if self.standing(id).is_none() {
            return Reply::refused(Refusal::Absent);
        }
        self.events.push(Event::Deleted { id });
        Reply::default()
    }

    fn lookup(&self, tenant: u32, id: u32) -> Reply {
        if let Some(refusal) = not_asked(tenant, id).or(self.no_medium()) {
            return Reply::refused(refusal);
        }
        match self.standing(id) {
            Some(Standing { value, server }) => Reply {
                value,
                opened: self.readable_from(server, id),
                ..Reply::default()
            },
            None => Reply {
                opened: self.readable_from(0, id),
                ..Reply::refused(Refusal::Absent)
            },
        }
    }

    fn no_medium(&self) -> Option<Refusal> {
        if self.weights.is_empty() {
            return Some(Refusal::NoSuchServer);
        }
        self.is_short(self.weights.len())
            .then_some(Refusal::ShortMedium)
    }

    fn is_short(&self, servers: usize) -> bool {
        self.medium_len < 3 * self.capacity as usize * servers
    }

    fn write_p(&self, server: usize) -> Fraction {
        if server == 0 {
            return Fraction::ONE;
        }
        if self.weights[server] == 0 {
            return Fraction::ZERO;
        }
        Fraction::new(self.weights[server], self.weights[..=server].iter().sum())
    }

    fn draw(&self, id: u32, server: usize) -> u32 {
        draw(self.salt, id, server)
    }

    fn write_server(&self, id: u32) -> usize {
        let exceeds = |&server: &usize| self.write_p(server).exceeds(self.draw(id, server));
        let servers = 0..self.weights.len();
        servers.rev().find(exceeds).expect("server 0 exceeds")
    }

    fn used(&self, k: usize) -> u32 {
        let is_on = |event: &&Event| match event {
            Event::Wrote { server, .. } | Event::Spent { server } => *server == k,
            Event::Deleted { .. } => false,
        };
        self.events.iter().filter(is_on).count() as u32
    }

    fn standing(&self, wanted: u32) -> Option<Standing> {
        for event in self.events.iter().rev() {
            match *event {
                Event::Wrote { id, value, server } if id == wanted => {
                    return Some(Standing { value, server });
                }
                Event::Deleted { id } if id == wanted => return None,
                _ => {}
            }
        }
        None
    }

    /// How many servers from `lowest` upward have a greatest WriteP that exceeds the draw.
    fn readable_from(&self, lowest: usize, id: u32) -> u32 {
        let exceeds = |&server: &usize| self.greatest[server].exceeds(self.draw(id, server));
        (lowest..self.weights.len()).filter(exceeds).count() as u32
    }
}

/// Why a tenant may not name an id at all: one of them is out of range, or the id is another's.
fn not_asked(tenant: u32, id: u32) -> Option<Refusal> {
    const IDS_OF_A_TENANT: u32 = 1 << 27;
    if tenant > 7 || id >= CONTENT_RANGE {
        return Some(Refusal::OutOfRange);
    }
    let first = tenant * IDS_OF_A_TENANT;
    let own = first..first + IDS_OF_A_TENANT;
    (!own.contains(&id)).then_some(Refusal::OtherTenant)
}
