//! A ticket archive on write-once media: the proved library, safe to call from Rust.
//!
//! ```
//! use ticket_archive::{server_words, tenant_of, Archive, Refusal, BLANK};
//!
//! let mut medium = vec![BLANK; 2 * server_words(100)];
//! let mut archive = Archive::start(100, 12345, &mut medium).unwrap();
//! archive.add_server(60).unwrap();
//! archive.add_server(40).unwrap();
//! let tenant = tenant_of(1001);
//! archive.write(tenant, 1001, 250).unwrap();
//! assert_eq!(archive.lookup(tenant, 1001).unwrap().value, 250);
//! let other = archive.lookup(tenant + 1, 1001);
//! assert_eq!(other.unwrap_err().refusal, Refusal::OtherTenant);
//! ```
//!
//! Each id belongs to one of eight tenants ([`tenant_of`]), and a call that names an id says which tenant makes it.
//!
//! An archive has a salt below [`CONTENT_RANGE`], here 12345: archives with different salts file the same ids differently.
//! 0 is the plain rule.
//!
//! An archive counts the servers that were opened for each tenant's lookups ([`Archive::counter`]), so that a lookup changes the
//! table, also where it is refused after it opened servers.
//!
//! A table can be kept from one run of a program to the next, or carried with its medium, as an image: [`Archive::image`] writes
//! it, and [`Archive::from_image`] goes on from it. Its words have tags, so that most damage to an image is told.
//!
//! A write or a delete that was cut off, as by a power failure, may have left some of its words on the medium. The table of
//! before it is then lent again, and [`Archive::recover`] is called before any other call: the id shows its old answer or the new
//! one, and every other id its own.

pub mod functions;
mod words;

use std::fmt;

pub use words::*;

/// Why a call was refused, by the paper's numbers.
#[derive(Clone, Copy, Debug, PartialEq, Eq)]
pub enum Refusal {
    UnsoundTable = 1,
    OutOfRange = 2,
    NoSuchServer = 3,
    TooManyServers = 4,
    ShortMedium = 5,
    ServerFull = 6,
    NotBlank = 7,
    NotFound = 8,
    ExceedsFree = 9,
    Corrupt = 10,
    OtherTenant = 11,
    BadImage = 12,
    ShortDestination = 13,
}

const REFUSALS: [Refusal; 13] = [
    Refusal::UnsoundTable,
    Refusal::OutOfRange,
    Refusal::NoSuchServer,
    Refusal::TooManyServers,
    Refusal::ShortMedium,
    Refusal::ServerFull,
    Refusal::NotBlank,
    Refusal::NotFound,
    Refusal::ExceedsFree,
    Refusal::Corrupt,
    Refusal::OtherTenant,
    Refusal::BadImage,
    Refusal::ShortDestination,
];

impl Refusal {
    /// The refusal of a number; 0 and the numbers that no call gives are none.
    pub fn from_number(number: u32) -> Option<Self> {
        REFUSALS
            .into_iter()
            .find(|refusal| *refusal as u32 == number)
    }
}

impl fmt::Display for Refusal {
    fn fmt(&self, out: &mut fmt::Formatter<'_>) -> fmt::Result {
        let text = match self {
            Refusal::UnsoundTable => "the table is not one that calls can have made",
            Refusal::OutOfRange => "an argument is out of range",
            Refusal::NoSuchServer => "there is no such server",
            Refusal::TooManyServers => "there are 256 servers already",
            Refusal::ShortMedium => "the medium is too short for the servers",
            Refusal::ServerFull => "the server that the write goes to is full",
            Refusal::NotBlank => "a word that would be written is not blank",
            Refusal::NotFound => "the id is absent",
            Refusal::ExceedsFree => "the weight exceeds the server's free entries",
            Refusal::Corrupt => "the value word is damaged",
            Refusal::OtherTenant => "the id belongs to another tenant",
            Refusal::BadImage => "the words are no table's image",
            Refusal::ShortDestination => "the destination is too short for the image",
        };
        out.write_str(text)
    }
}

impl std::error::Error for Refusal {}

/// An accepted write: where it went, and how many earlier entries of the id it replaced.
#[derive(Clone, Copy, Debug, PartialEq, Eq)]
pub struct Written {
    pub server: u32,
    pub invalidated: u32,
}

/// A value found, and how many servers were opened for it.
#[derive(Clone, Copy, Debug, PartialEq, Eq)]
pub struct Found {
    pub value: u32,
    pub opened: u32,
}

/// A lookup that found no value, and how many servers were opened for it.
#[derive(Clone, Copy, Debug, PartialEq, Eq)]
pub struct Missed {
    pub refusal: Refusal,
    pub opened: u32,
}

impl fmt::Display for Missed {
    fn fmt(&self, out: &mut fmt::Formatter<'_>) -> fmt::Result {
        self.refusal.fmt(out)
    }
}

impl std::error::Error for Missed {}

/// Many ids looked up together.
#[derive(Clone, Debug, PartialEq, Eq)]
pub struct Batch {
    /// What a lookup of each id alone would answer, in the order of the ids.
    pub answers: Vec<Result<Found, Missed>>,
    /// The positions of the ids, in the order in which they are found.
    pub order: Vec<u32>,
    /// How many different servers were opened.
    pub mounts: u32,
}

/// A table over a medium that is lent to it.
pub struct Archive<'m> {
    table: [u32; TABLE_WORDS],
    medium: &'m mut [u32],
}

fn told(number: u32) -> Result<(), Refusal> {
    match number {
        0 => Ok(()),
        _ => Err(Refusal::from_number(number).expect("slices have the lengths that are asked for")),
    }
}

/// The words of a call.
fn encoded(number: u32, tenant: u32, subject: u32, amount: u32) -> [u32; CALL_WORDS] {
    let mut words = [0; CALL_WORDS];
    words[call::NUMBER] = number;
    words[call::TENANT] = tenant;
    words[call::SUBJECT] = subject;
    words[call::AMOUNT] = amount;
    words
}

fn written(reply: &[u32]) -> Result<Written, Refusal> {
    told(reply[reply::REFUSAL])?;
    Ok(Written {
        server: reply[reply::SERVER],
        invalidated: reply[reply::INVALIDATED],
    })
}

fn looked_up(reply: &[u32]) -> Result<Found, Missed> {
    let opened = reply[reply::OPENED];
    match told(reply[reply::REFUSAL]) {
        Ok(()) => Ok(Found {
            value: reply[reply::VALUE],
            opened,
        }),
        Err(refusal) => Err(Missed { refusal, opened }),
    }
}

impl<'m> Archive<'m> {
    /// An archive of no server over a medium, whose servers will have this many entries each, and whose table keeps this salt.
    pub fn start(capacity: u32, salt: u32, medium: &'m mut [u32]) -> Result<Self, Refusal> {
        let mut table = [0; TABLE_WORDS];
        told(functions::start(capacity, salt, &mut table))?;
        Ok(Archive { table, medium })
    }

    /// An archive from the words of a table, which may be any: calls refuse those of none.
    pub fn from_words(table: [u32; TABLE_WORDS], medium: &'m mut [u32]) -> Self {
        Archive { table, medium }
    }

    /// An archive from the image of a table, which is all of these words.
    pub fn from_image(image: &[u32], medium: &'m mut [u32]) -> Result<Self, Refusal> {
        let mut table = [0; TABLE_WORDS];
        told(functions::decode(image, &mut table))?;
        Ok(Archive { table, medium })
    }

    /// Writes the image of its table to the front of a run; answers how many words it has, [`image_words`] of the servers and
    /// [`MAX_IMAGE_WORDS`] at most. The words after it keep their content, and so do all where it is refused.
    pub fn image(&self, destination: &mut [u32]) -> Result<usize, Refusal> {
        let mut length = [0];
        told(functions::encode(&self.table, destination, &mut length))?;
        Ok(length[0] as usize)
    }

    /// The words of its table, to be kept.
    pub fn table(&self) -> &[u32; TABLE_WORDS] {
        &self.table
    }

    /// How many servers were opened for a tenant's lookups and batches, up to [`MAX_COUNTER`], where it stops; none for a number
    /// that is no tenant's.
    pub fn counter(&self, tenant: u32) -> Option<u32> {
        let counters = &self.table[TABLE_COUNTERS..][..TENANTS as usize];
        counters.get(tenant as usize).copied()
    }

    /// The words of its medium.
    pub fn medium(&self) -> &[u32] {
        self.medium
    }

    /// Runs one encoded call; answers its reply.
    pub fn call(&mut self, call: &[u32; CALL_WORDS]) -> [u32; REPLY_WORDS] {
        let mut reply = [0; REPLY_WORDS];
        functions::call(&mut self.table, self.medium, call, &mut reply);
        reply
    }

    fn run(&mut self, number: u32, tenant: u32, subject: u32, amount: u32) -> [u32; REPLY_WORDS] {
        self.call(&encoded(number, tenant, subject, amount))
    }

    /// The same for a write or a delete with a number of burns.
    fn run_some(&mut self, mut call: [u32; CALL_WORDS], burns: u32) -> [u32; REPLY_WORDS] {
        let mut reply = [0; REPLY_WORDS];
        call[call::BURNS] = burns;
        functions::call_some(&mut self.table, self.medium, &call, &mut reply);
        reply
    }

    /// Adds a server; answers its number.
    pub fn add_server(&mut self, weight: u32) -> Result<u32, Refusal> {
        let reply = self.run(call::ADD_SERVER, 0, 0, weight);
        told(reply[reply::REFUSAL])?;
        Ok(reply[reply::SERVER])
    }

    /// Sets a server's weight.
    pub fn reweight(&mut self, server: u32, weight: u32) -> Result<(), Refusal> {
        told(self.run(call::REWEIGHT, 0, server, weight)[reply::REFUSAL])
    }

    /// Writes the value of a tenant's id.
    pub fn write(&mut self, tenant: u32, id: u32, value: u32) -> Result<Written, Refusal> {
        written(&self.run(call::WRITE, tenant, id, value))
    }

    /// Makes the first burns of a write, this many of them, as a writer that is cut off there would: the word of the value, that
    /// of the id, then the marks of the entries that it replaces, the lowest server and on a server the lowest entry first. The
    /// answer is that of [`Archive::write`]. Where a burn is left over the table is as it was; with none this is that call.
    pub fn write_some(
        &mut self,
        tenant: u32,
        id: u32,
        value: u32,
        burns: u32,
    ) -> Result<Written, Refusal> {
        let call = encoded(call::WRITE, tenant, id, value);
        written(&self.run_some(call, burns))
    }

    /// Deletes a tenant's id; answers how many entries it invalidated.
    pub fn delete(&mut self, tenant: u32, id: u32) -> Result<u32, Refusal> {
        Ok(written(&self.run(call::DELETE, tenant, id, 0))?.invalidated)
    }

    /// Makes the first burns of a delete, this many of its marks, the lowest server and on a server the lowest entry first. The
    /// answer is that of [`Archive::delete`], and with no burn left over this is that call.
    pub fn delete_some(&mut self, tenant: u32, id: u32, burns: u32) -> Result<u32, Refusal> {
        let call = encoded(call::DELETE, tenant, id, 0);
        Ok(written(&self.run_some(call, burns))?.invalidated)
    }

    /// Sets from the medium how many entries of each server are used: one past the last with a word that is not blank. To be
    /// called before any other call where a write or a delete was cut off, on the table of before that call.
    pub fn recover(&mut self) -> Result<(), Refusal> {
        told(functions::recover(&mut self.table, self.medium))
    }

    /// Looks a tenant's id up, and counts the servers that it opened, found or not.
    pub fn lookup(&mut self, tenant: u32, id: u32) -> Result<Found, Missed> {
        looked_up(&self.run(call::LOOKUP, tenant, id, 0))
    }

    /// Looks up to 256 ids up together for a tenant, and counts what a lookup of each alone would count. An id of another tenant
    /// gets its own refusal.
    pub fn lookup_batch(&mut self, tenant: u32, ids: &[u32]) -> Result<Batch, Refusal> {
        let mut replies = vec![0; REPLY_WORDS * ids.len()];
        let mut order = vec![0; ids.len()];
        let mut mounts = [0];
        told(functions::lookup_batch(
            &mut self.table,
            self.medium,
            tenant,
            ids,
            &mut replies,
            &mut order,
            &mut mounts,
        ))?;
        Ok(Batch {
            answers: replies.chunks_exact(REPLY_WORDS).map(looked_up).collect(),
            order,
            mounts: mounts[0],
        })
    }
}
