//! Calls and replies as words, as include/archive.h has them.

/// The version of the interface that this crate is written for; `functions::abi` answers the library's own.
pub const ABI: u32 = 6;

/// How many words a table has.
pub const TABLE_WORDS: usize = 1035;

/// How many words a call has.
pub const CALL_WORDS: usize = 8;

/// How many words a reply has.
pub const REPLY_WORDS: usize = 8;

/// A word of the medium that was never written.
pub const BLANK: u32 = u32::MAX;

/// How many words of the medium a server has.
pub const fn server_words(capacity: u32) -> usize {
    3 * capacity as usize
}

/// The most servers.
pub const MAX_SERVERS: usize = 256;

/// The most entries of a server.
pub const MAX_CAPACITY: u32 = 65_536;

/// The most ids of a batch.
pub const MAX_IDS: usize = 256;

/// Ids, values and salts are below this.
pub const CONTENT_RANGE: u32 = 1 << 30;

/// How many tenants there are, numbered from 0.
pub const TENANTS: u32 = 8;

/// The tenant that an id belongs to: the top three of its 30 bits. For what is no id it is no tenant.
pub const fn tenant_of(id: u32) -> u32 {
    id >> 27
}

/// Which word of a table is the counter of tenant 0; those of the others follow.
pub const TABLE_COUNTERS: usize = 1027;

/// Where a tenant's counter stops.
pub const MAX_COUNTER: u32 = CONTENT_RANGE - 1;

/// How many words the image of a table has, by its number of servers.
pub const fn image_words(count: usize) -> usize {
    10 + 4 * count
}

/// The most words of an image: those of 256 servers.
pub const MAX_IMAGE_WORDS: usize = image_words(MAX_SERVERS);

/// The refusal number of a call that was carried out.
pub const ACCEPTED: u32 = 0;

/// The answer to a run that is too short.
pub const SHORT: u32 = u32::MAX - 1;

/// The answer to a number that is no call's.
pub const NO_CALL: u32 = u32::MAX;

/// The numbers of the calls.
pub mod call {
    pub const ADD_SERVER: u32 = 1;
    pub const REWEIGHT: u32 = 2;
    pub const WRITE: u32 = 3;
    pub const DELETE: u32 = 4;
    pub const LOOKUP: u32 = 5;

    /// Which word of a call is which.
    pub const NUMBER: usize = 0;
    pub const TENANT: usize = 1;
    pub const SUBJECT: usize = 2;
    pub const AMOUNT: usize = 3;
    pub const BURNS: usize = 6;
}

/// Which word of a reply is which.
pub mod reply {
    pub const REFUSAL: usize = 0;
    pub const SERVER: usize = 1;
    pub const VALUE: usize = 2;
    pub const OPENED: usize = 4;
    pub const INVALIDATED: usize = 5;
}
