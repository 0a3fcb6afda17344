//! The archive in ordinary Rust, from document 01 and the second, fourth, fifth and seventh requests
//! of document 02: a mutable table and a lent medium. A refused call changes neither, but for the
//! counter of a tenant whose refused lookup opened servers.

use crate::placement::{draw, share, write_server, Fraction};
use crate::placement::{MAX_CAPACITY, MAX_SERVERS, SALT_RANGE};

pub const BLANK: u32 = u32::MAX;
pub const CONTENT_RANGE: u32 = 1 << 30;
pub const TENANTS: u32 = 8;
pub const MAX_DENOMINATOR: u32 = 1 << 24;

/// Where a tenant's counter stops.
pub const MAX_COUNTER: u32 = (1 << 30) - 1;

const VALUE_TAG: u32 = 1;
const MARK_TAG: u32 = 2;

#[derive(Clone, Copy, Debug, PartialEq, Eq)]
pub enum Refusal {
    Unsound = 1,
    OutOfRange = 2,
    NoSuchServer = 3,
    TooManyServers = 4,
    ShortMedium = 5,
    ServerFull = 6,
    NotBlank = 7,
    Absent = 8,
    OverFree = 9,
    Damaged = 10,
    OtherTenant = 11,
    BadImage = 12,
    ShortDestination = 13,
}

#[derive(Clone, Copy)]
enum Mark {
    Replaced = 1,
    Deleted = 2,
}

impl Mark {
    fn word(self) -> u32 {
        MARK_TAG << 30 | self as u32
    }
}

/// More burns than any call makes: the plain calls are the bodies with so many.
pub const ALL_BURNS: u32 = u32::MAX;

/// The burns that a body may still make, and whether it had one that it might not make.
struct Laser {
    left: u32,
    is_cut: bool,
}

impl Laser {
    fn new(burns: u32) -> Self {
        Laser {
            left: burns,
            is_cut: false,
        }
    }

    /// The next burn.
    fn burn(&mut self, place: &mut u32, word: u32) {
        if self.left == 0 {
            self.is_cut = true;
        } else {
            self.left -= 1;
            *place = word;
        }
    }
}

pub struct Written {
    pub server: u32,
    pub invalidated: u32,
}

pub struct Found {
    pub value: u32,
    pub opened: u32,
}

/// A refused lookup; absent and damaged carry the servers opened.
pub struct Missed {
    pub refusal: Refusal,
    pub opened: u32,
}

impl From<Refusal> for Missed {
    fn from(refusal: Refusal) -> Self {
        Missed { refusal, opened: 0 }
    }
}

/// The tenant that an id in range belongs to, the top three of its 30 bits; 8 and more for others.
pub fn tenant_of(id: u32) -> u32 {
    id >> 27
}

/// The words of one entry: id, value, mark.
type Entry = [u32; 3];

fn is_live(entry: &Entry, id: u32) -> bool {
    entry[0] == id && entry[2] == BLANK
}

fn refuse_if(condition: bool, refusal: Refusal) -> Result<(), Refusal> {
    if condition {
        Err(refusal)
    } else {
        Ok(())
    }
}

/// Positions at or above `count` are not read.
#[derive(Clone, Debug, PartialEq, Eq)]
pub struct Table {
    pub capacity: u32,
    pub salt: u32,
    pub count: u32,
    pub weights: [u32; MAX_SERVERS],
    pub used: [u32; MAX_SERVERS],
    pub read_numerators: [u32; MAX_SERVERS],
    pub read_denominators: [u32; MAX_SERVERS],
    /// How many servers were opened for each tenant.
    pub counters: [u32; TENANTS as usize],
}

impl Table {
    /// All zeros: what a refused start leaves.
    pub const ZERO: Table = Table {
        capacity: 0,
        salt: 0,
        count: 0,
        weights: [0; MAX_SERVERS],
        used: [0; MAX_SERVERS],
        read_numerators: [0; MAX_SERVERS],
        read_denominators: [0; MAX_SERVERS],
        counters: [0; TENANTS as usize],
    };

    pub fn start(capacity: u32, salt: u32) -> Result<Table, Refusal> {
        refuse_if(
            capacity == 0 || capacity > MAX_CAPACITY || salt >= SALT_RANGE,
            Refusal::OutOfRange,
        )?;
        Ok(Table {
            capacity,
            salt,
            ..Table::ZERO
        })
    }

    pub fn is_sound(&self) -> bool {
        let count = self.count as usize;
        if self.capacity == 0 || self.capacity > MAX_CAPACITY || count > MAX_SERVERS {
            return false;
        }
        if self.salt >= SALT_RANGE {
            return false;
        }
        let servers = self.weights[..count]
            .iter()
            .zip(&self.used[..count])
            .zip(&self.read_numerators[..count])
            .zip(&self.read_denominators[..count]);
        let mut sum = 0;
        for (server, (((&weight, &used), &numerator), &denominator)) in servers.enumerate() {
            if weight > self.capacity || used > self.capacity {
                return false;
            }
            if denominator == 0 || denominator > MAX_DENOMINATOR || numerator > denominator {
                return false;
            }
            sum += weight;
            let read_p = Fraction::new(numerator, denominator);
            if share(server, weight, sum).is_above(read_p) {
                return false;
            }
        }
        self.counters.iter().all(|&counter| counter <= MAX_COUNTER)
    }

    pub fn add_server(&mut self, medium: &[u32], weight: u32) -> Result<u32, Refusal> {
        self.refuse_unsound()?;
        let server = self.count as usize;
        refuse_if(weight > self.capacity, Refusal::OutOfRange)?;
        refuse_if(server == MAX_SERVERS, Refusal::TooManyServers)?;
        self.refuse_short(medium, server + 1)?;
        let words = 3 * self.capacity as usize;
        let new = &medium[words * server..words * (server + 1)];
        refuse_if(new.iter().any(|&word| word != BLANK), Refusal::NotBlank)?;

        self.weights[server] = weight;
        self.used[server] = 0;
        let sum = self.weights[..=server].iter().sum();
        self.set_read_p(server, share(server, weight, sum));
        self.count += 1;
        Ok(server as u32)
    }

    pub fn reweight(&mut self, server: u32, weight: u32) -> Result<u32, Refusal> {
        self.refuse_unsound()?;
        refuse_if(weight > self.capacity, Refusal::OutOfRange)?;
        refuse_if(server >= self.count, Refusal::NoSuchServer)?;
        let at = server as usize;
        refuse_if(weight > self.capacity - self.used[at], Refusal::OverFree)?;

        self.weights[at] = weight;
        self.raise_read_p();
        Ok(server)
    }

    /// The body of write, with a number of burns: the value word, the id word, then the marks. Where
    /// a burn is left over the table keeps its used.
    pub fn write(
        &mut self,
        medium: &mut [u32],
        tenant: u32,
        id: u32,
        value: u32,
        burns: u32,
    ) -> Result<Written, Refusal> {
        self.refuse_asked(medium, tenant, id, value >= CONTENT_RANGE)?;
        let server = write_server(&self.weights[..self.count as usize], self.salt, id);
        let used = self.used[server];
        refuse_if(used == self.capacity, Refusal::ServerFull)?;
        let entry = &mut medium.as_chunks_mut().0[self.first_entry(server) + used as usize];
        refuse_if(*entry != [BLANK; 3], Refusal::NotBlank)?;

        let mut laser = Laser::new(burns);
        laser.burn(&mut entry[1], VALUE_TAG << 30 | value);
        laser.burn(&mut entry[0], id);
        let invalidated = self.invalidate(medium, server, id, Mark::Replaced, &mut laser);
        if !laser.is_cut {
            self.used[server] += 1;
        }
        Ok(Written {
            server: server as u32,
            invalidated,
        })
    }

    /// The body of delete, with a number of burns. Answers how many entries it invalidates with all.
    pub fn delete(
        &self,
        medium: &mut [u32],
        tenant: u32,
        id: u32,
        burns: u32,
    ) -> Result<u32, Refusal> {
        self.refuse_asked(medium, tenant, id, false)?;
        let mut laser = Laser::new(burns);
        match self.invalidate(medium, 0, id, Mark::Deleted, &mut laser) {
            0 => Err(Refusal::Absent),
            invalidated => Ok(invalidated),
        }
    }

    /// Sets the used of every server from the medium: one past its last entry with a word that is
    /// not blank, or 0.
    pub fn recover(&mut self, medium: &[u32]) -> Result<(), Refusal> {
        self.refuse_unsound()?;
        let count = self.count as usize;
        self.refuse_short(medium, count)?;
        let entries: &[Entry] = medium.as_chunks().0;
        let servers = entries.chunks_exact(self.capacity as usize);
        for (used, entries) in self.used[..count].iter_mut().zip(servers) {
            let last = entries.iter().rposition(|entry| *entry != [BLANK; 3]);
            *used = last.map_or(0, |last| last as u32 + 1);
        }
        Ok(())
    }

    /// The server and the entry that a lookup of an id meets, if it meets one.
    pub fn meets(&self, medium: &[u32], id: u32) -> Option<(usize, usize)> {
        let servers = 0..self.count as usize;
        let mut readable = servers.rev().filter(|&k| self.is_readable(k, id));
        readable.find_map(|server| {
            let entries = self.entries(medium, server);
            let entry = entries.iter().rposition(|entry| is_live(entry, id))?;
            Some((server, entry))
        })
    }

    /// Counts the servers that it opened, found or not.
    pub fn lookup(&mut self, medium: &[u32], tenant: u32, id: u32) -> Result<Found, Missed> {
        self.refuse_asked(medium, tenant, id, false)?;
        let mut opened = 0;
        let mut found = None;
        for server in (0..self.count as usize).rev() {
            if !self.is_readable(server, id) {
                continue;
            }
            opened += 1;
            let entries = self.entries(medium, server);
            found = entries.iter().rev().find(|entry| is_live(entry, id));
            if found.is_some() {
                break;
            }
        }
        self.count_opened(tenant, opened);
        match found {
            Some(entry) => value_of(entry[1], opened),
            None => Err(Missed {
                refusal: Refusal::Absent,
                opened,
            }),
        }
    }

    fn count_opened(&mut self, tenant: u32, opened: u32) {
        let counter = &mut self.counters[tenant as usize];
        *counter = (*counter + opened).min(MAX_COUNTER);
    }

    /// The servers that a lookup opens, in the order of opening; none where it is refused before.
    pub fn opens(&self, medium: &[u32], tenant: u32, id: u32) -> Vec<usize> {
        let mut opened = Vec::new();
        if self.refuse_asked(medium, tenant, id, false).is_err() {
            return opened;
        }
        let servers = 0..self.count as usize;
        for server in servers.rev().filter(|&k| self.is_readable(k, id)) {
            opened.push(server);
            let entries = self.entries(medium, server);
            if entries.iter().any(|entry| is_live(entry, id)) {
                break;
            }
        }
        opened
    }

    /// The table in words for the reader, positions below its count alone.
    pub fn described(&self) -> String {
        let count = (self.count as usize).min(MAX_SERVERS);
        format!(
            "capacity {}, salt {}, count {}\nweights {:?}\nused {:?}\nReadP {:?} over {:?}\ncounters {:?}",
            self.capacity,
            self.salt,
            self.count,
            &self.weights[..count],
            &self.used[..count],
            &self.read_numerators[..count],
            &self.read_denominators[..count],
            self.counters
        )
    }

    fn refuse_unsound(&self) -> Result<(), Refusal> {
        refuse_if(!self.is_sound(), Refusal::Unsound)
    }

    /// The tests that write, delete and lookup begin with; `outside` is that of another argument.
    fn refuse_asked(
        &self,
        medium: &[u32],
        tenant: u32,
        id: u32,
        outside: bool,
    ) -> Result<(), Refusal> {
        self.refuse_unsound()?;
        refuse_if(
            tenant >= TENANTS || id >= CONTENT_RANGE || outside,
            Refusal::OutOfRange,
        )?;
        refuse_if(tenant_of(id) != tenant, Refusal::OtherTenant)?;
        refuse_if(self.count == 0, Refusal::NoSuchServer)?;
        self.refuse_short(medium, self.count as usize)
    }

    fn refuse_short(&self, medium: &[u32], servers: usize) -> Result<(), Refusal> {
        let needed = 3 * self.capacity as usize * servers;
        refuse_if(medium.len() < needed, Refusal::ShortMedium)
    }

    fn first_entry(&self, server: usize) -> usize {
        self.capacity as usize * server
    }

    /// The entries that a server has used.
    fn entries<'m>(&self, medium: &'m [u32], server: usize) -> &'m [Entry] {
        let first = self.first_entry(server);
        &medium.as_chunks().0[first..first + self.used[server] as usize]
    }

    fn read_p(&self, server: usize) -> Fraction {
        Fraction::new(self.read_numerators[server], self.read_denominators[server])
    }

    fn set_read_p(&mut self, server: usize, fraction: Fraction) {
        self.read_numerators[server] = fraction.numerator;
        self.read_denominators[server] = fraction.denominator;
    }

    fn is_readable(&self, server: usize, id: u32) -> bool {
        self.read_p(server).exceeds(draw(self.salt, id, server))
    }

    /// Each server whose WriteP is strictly above its ReadP takes it.
    fn raise_read_p(&mut self) {
        let mut sum = 0;
        for server in 0..self.count as usize {
            let weight = self.weights[server];
            sum += weight;
            let write_p = share(server, weight, sum);
            if write_p.is_above(self.read_p(server)) {
                self.set_read_p(server, write_p);
            }
        }
    }

    /// Marks the live entries of an id on the readable servers from `lowest` on, the lowest server and
    /// on a server the lowest entry first. Answers how many there are, marked or not.
    fn invalidate(
        &self,
        medium: &mut [u32],
        lowest: usize,
        id: u32,
        mark: Mark,
        laser: &mut Laser,
    ) -> u32 {
        let mut invalidated = 0;
        for server in lowest..self.count as usize {
            if !self.is_readable(server, id) {
                continue;
            }
            let first = self.first_entry(server);
            let used = self.used[server] as usize;
            for entry in &mut medium.as_chunks_mut().0[first..first + used] {
                if is_live(entry, id) {
                    laser.burn(&mut entry[2], mark.word());
                    invalidated += 1;
                }
            }
        }
        invalidated
    }
}

/// The answer of a lookup that found a live entry with this value word.
fn value_of(word: u32, opened: u32) -> Result<Found, Missed> {
    if word >> 30 != VALUE_TAG {
        return Err(Missed {
            refusal: Refusal::Damaged,
            opened,
        });
    }
    Ok(Found {
        value: word % CONTENT_RANGE,
        opened,
    })
}
