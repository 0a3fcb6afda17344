//! Random calls over a small archive, with arguments at the edges of their ranges.

use crate::archive::{tenant_of, Table, CONTENT_RANGE, TENANTS};
use crate::calls::Call;
use crate::placement::step;
use crate::random::Random;
use crate::salts;

/// What the calls of one list are drawn from.
pub struct Shape {
    pub capacity: u32,
    pub salt: u32,
    pub servers: u32,
    pub ids: Vec<u32>,
}

impl Shape {
    pub fn random(random: &mut Random, max_capacity: u32, max_servers: u32) -> Self {
        let capacity = random.between(1, max_capacity);
        let servers = random.between(1, max_servers);
        let mut shape = Shape {
            capacity,
            salt: salts::salt(random),
            servers,
            ids: Vec::new(),
        };
        for _ in 0..random.between(1, 12) {
            let id = shape.new_id(random);
            shape.ids.push(id);
        }
        shape
    }

    /// Any id, one at an edge of a tenant's, or an earlier one with another tenant's top bits.
    fn new_id(&self, random: &mut Random) -> u32 {
        match random.below(8) {
            0 => tenant_edge(random),
            1 if !self.ids.is_empty() => {
                let id = random.pick(&self.ids);
                moved(id, random.below(TENANTS))
            }
            _ => random.below(CONTENT_RANGE),
        }
    }

    /// The same with most ids given to one tenant, so that a batch of its finds more than one.
    pub fn mostly_of_one(mut self, random: &mut Random) -> Self {
        let tenant = random.below(TENANTS);
        for id in &mut self.ids {
            if !random.one_in(8) {
                *id = moved(*id, tenant);
            }
        }
        self
    }

    /// The medium's length: room for the servers, or now and then a little less or more.
    pub fn medium_len(&self, random: &mut Random) -> usize {
        let whole = (3 * self.capacity * self.servers) as usize;
        match random.below(8) {
            0 => whole - 1,
            1 => whole + random.below(3 * self.capacity) as usize,
            _ => whole,
        }
    }

    /// Adds servers first, so that the list does not begin with refusals, then any calls.
    pub fn list(&self, random: &mut Random, length: usize) -> Vec<Call> {
        let first = random.below(self.servers + 1) as usize;
        (0..length)
            .map(|at| {
                if at < first {
                    Call::AddServer {
                        weight: self.weight(random),
                    }
                } else {
                    self.call(random)
                }
            })
            .collect()
    }

    pub fn call(&self, random: &mut Random) -> Call {
        match random.below(32) {
            0..=2 => Call::AddServer {
                weight: self.weight(random),
            },
            3..=6 => Call::Reweight {
                server: self.server(random),
                weight: self.weight(random),
            },
            7..=17 => {
                let (tenant, id) = self.asked(random);
                let value = value(random);
                Call::Write { tenant, id, value }
            }
            18..=21 => {
                let (tenant, id) = self.asked(random);
                Call::Delete { tenant, id }
            }
            22..=30 => {
                let (tenant, id) = self.asked(random);
                Call::Lookup { tenant, id }
            }
            _ => no_call(random),
        }
    }

    /// A caller's tenant and the id that it names.
    fn asked(&self, random: &mut Random) -> (u32, u32) {
        let id = self.id(random);
        (caller(random, id), id)
    }

    pub fn weight(&self, random: &mut Random) -> u32 {
        match random.below(32) {
            0 => self.capacity + 1,
            1 => u32::MAX,
            2..=5 => 0,
            6..=9 => self.capacity,
            _ => random.below(self.capacity + 1),
        }
    }

    fn server(&self, random: &mut Random) -> u32 {
        match random.below(32) {
            0 => u32::MAX,
            1 => 256,
            _ => random.below(self.servers + 1),
        }
    }

    pub fn id(&self, random: &mut Random) -> u32 {
        match random.below(48) {
            0 => CONTENT_RANGE,
            1 => u32::MAX,
            2 => CONTENT_RANGE - 1,
            3 => random.below(CONTENT_RANGE),
            4 | 5 => self.id_of_seed_0(random).unwrap_or(0),
            6 => tenant_edge(random),
            _ => random.pick(&self.ids),
        }
    }

    /// The id whose seed on one of the servers would be 0, if it is in range.
    fn id_of_seed_0(&self, random: &mut Random) -> Option<u32> {
        let server = random.below(self.servers) as usize;
        let id = step(server).wrapping_add(self.salt).wrapping_neg();
        (id < CONTENT_RANGE).then_some(id)
    }

    /// The capacity and the salt that the list starts with.
    pub fn start(&self) -> [u32; 2] {
        [self.capacity, self.salt]
    }

    /// A table of no server for these calls.
    pub fn table(&self) -> Table {
        Table::start(self.capacity, self.salt).expect("in range")
    }
}

/// The same id but for the bits that say whose it is.
pub fn moved(id: u32, tenant: u32) -> u32 {
    (tenant << 27) | (id % (1 << 27))
}

/// The first or the last id of a tenant.
fn tenant_edge(random: &mut Random) -> u32 {
    let first = random.below(TENANTS) << 27;
    match random.one_in(2) {
        true => first,
        false => first + (1 << 27) - 1,
    }
}

/// Who names an id: mostly its own tenant, now and then another or none of the eight. An id out of
/// range has its tenant by all its bits, which is none of the eight, or by the low 30 alone.
pub fn caller(random: &mut Random, id: u32) -> u32 {
    match random.below(32) {
        0 => no_tenant(random),
        1 | 2 => random.below(TENANTS),
        3 => tenant_of(id) ^ 1 << random.below(3),
        part if part % 2 == 0 => tenant_of(id),
        _ => tenant_of(id % CONTENT_RANGE),
    }
}

/// A number that is no tenant's.
pub fn no_tenant(random: &mut Random) -> u32 {
    match random.below(6) {
        0 => random.word() | TENANTS,
        _ => random.pick(&[TENANTS, TENANTS + 1, 1 << 29, u32::MAX]),
    }
}

fn value(random: &mut Random) -> u32 {
    match random.below(48) {
        0 => CONTENT_RANGE,
        1 => u32::MAX,
        2 => CONTENT_RANGE - 1,
        _ => random.below(CONTENT_RANGE),
    }
}

fn no_call(random: &mut Random) -> Call {
    let number = match random.below(4) {
        0 => 0,
        1 => 6,
        2 => u32::MAX,
        _ => random.between(7, 1 << 20),
    };
    Call::None { number }
}
