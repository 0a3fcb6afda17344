//! The exported functions on slices, one for each of include/archive.h.

#[link(name = "embed", kind = "static")]
extern "C" {
    fn archive_abi() -> u32;
    fn archive_table_words() -> usize;
    fn archive_start(capacity: u32, salt: u32, table: *mut u32, table_words: usize) -> u32;
    fn archive_call(
        table: *mut u32,
        table_words: usize,
        medium: *mut u32,
        medium_words: usize,
        call: *const u32,
        call_words: usize,
        reply: *mut u32,
        reply_words: usize,
    ) -> u32;
    fn archive_call_some(
        table: *mut u32,
        table_words: usize,
        medium: *mut u32,
        medium_words: usize,
        call: *const u32,
        call_words: usize,
        reply: *mut u32,
        reply_words: usize,
    ) -> u32;
    fn archive_recover(
        table: *mut u32,
        table_words: usize,
        medium: *const u32,
        medium_words: usize,
    ) -> u32;
    fn archive_lookup_batch(
        table: *mut u32,
        table_words: usize,
        medium: *const u32,
        medium_words: usize,
        tenant: u32,
        ids: *const u32,
        ids_words: usize,
        replies: *mut u32,
        replies_words: usize,
        order: *mut u32,
        order_words: usize,
        mounts: *mut u32,
        mounts_words: usize,
    ) -> u32;
    fn archive_replay(
        capacity: u32,
        salt: u32,
        calls: *const u32,
        calls_words: usize,
        medium: *mut u32,
        medium_words: usize,
        replies: *mut u32,
        replies_words: usize,
    ) -> usize;
    fn archive_resume(
        table: *mut u32,
        table_words: usize,
        calls: *const u32,
        calls_words: usize,
        medium: *mut u32,
        medium_words: usize,
        replies: *mut u32,
        replies_words: usize,
    ) -> usize;
    fn archive_picks(
        weights: *const u32,
        weights_words: usize,
        salt: u32,
        ids: *const u32,
        ids_words: usize,
        servers: *mut u32,
        servers_words: usize,
    ) -> usize;
    fn archive_encode(
        table: *const u32,
        table_words: usize,
        image: *mut u32,
        image_words: usize,
        length: *mut u32,
        length_words: usize,
    ) -> u32;
    fn archive_decode(
        image: *const u32,
        image_words: usize,
        table: *mut u32,
        table_words: usize,
    ) -> u32;
}

// SAFETY of every block below: the pointers and lengths are those of slices, the writable ones
// borrowed alone, and no function keeps one.

/// The version of the library's interface.
pub fn abi() -> u32 {
    unsafe { archive_abi() }
}

/// How many words a table has.
pub fn table_words() -> usize {
    unsafe { archive_table_words() }
}

/// Makes a table of no server with this salt; answers a refusal number, or 0.
pub fn start(capacity: u32, salt: u32, table: &mut [u32]) -> u32 {
    unsafe { archive_start(capacity, salt, table.as_mut_ptr(), table.len()) }
}

/// Runs one encoded call; answers its refusal number, or 0.
pub fn call(table: &mut [u32], medium: &mut [u32], call: &[u32], reply: &mut [u32]) -> u32 {
    unsafe {
        archive_call(
            table.as_mut_ptr(),
            table.len(),
            medium.as_mut_ptr(),
            medium.len(),
            call.as_ptr(),
            call.len(),
            reply.as_mut_ptr(),
            reply.len(),
        )
    }
}

/// Runs an encoded write or delete with the number of burns in its words, and no other call; answers
/// its refusal number, or 0.
pub fn call_some(table: &mut [u32], medium: &mut [u32], call: &[u32], reply: &mut [u32]) -> u32 {
    unsafe {
        archive_call_some(
            table.as_mut_ptr(),
            table.len(),
            medium.as_mut_ptr(),
            medium.len(),
            call.as_ptr(),
            call.len(),
            reply.as_mut_ptr(),
            reply.len(),
        )
    }
}

/// Sets the used of every server of a table from the medium; answers a refusal number, or 0.
pub fn recover(table: &mut [u32], medium: &[u32]) -> u32 {
    unsafe {
        archive_recover(
            table.as_mut_ptr(),
            table.len(),
            medium.as_ptr(),
            medium.len(),
        )
    }
}

/// Looks many ids up together for a tenant, whose counter in the table grows; answers the refusal
/// number of the list, or 0.
pub fn lookup_batch(
    table: &mut [u32],
    medium: &[u32],
    tenant: u32,
    ids: &[u32],
    replies: &mut [u32],
    order: &mut [u32],
    mounts: &mut [u32],
) -> u32 {
    unsafe {
        archive_lookup_batch(
            table.as_mut_ptr(),
            table.len(),
            medium.as_ptr(),
            medium.len(),
            tenant,
            ids.as_ptr(),
            ids.len(),
            replies.as_mut_ptr(),
            replies.len(),
            order.as_mut_ptr(),
            order.len(),
            mounts.as_mut_ptr(),
            mounts.len(),
        )
    }
}

/// Runs an encoded list on a table started with this capacity and salt; answers how many calls ran.
pub fn replay(
    capacity: u32,
    salt: u32,
    calls: &[u32],
    medium: &mut [u32],
    replies: &mut [u32],
) -> usize {
    unsafe {
        archive_replay(
            capacity,
            salt,
            calls.as_ptr(),
            calls.len(),
            medium.as_mut_ptr(),
            medium.len(),
            replies.as_mut_ptr(),
            replies.len(),
        )
    }
}

/// Runs an encoded list on a table given as words; answers how many calls ran.
pub fn resume(table: &mut [u32], calls: &[u32], medium: &mut [u32], replies: &mut [u32]) -> usize {
    unsafe {
        archive_resume(
            table.as_mut_ptr(),
            table.len(),
            calls.as_ptr(),
            calls.len(),
            medium.as_mut_ptr(),
            medium.len(),
            replies.as_mut_ptr(),
            replies.len(),
        )
    }
}

/// Picks the write server of each id under this salt; answers how many were picked.
pub fn picks(weights: &[u32], salt: u32, ids: &[u32], servers: &mut [u32]) -> usize {
    unsafe {
        archive_picks(
            weights.as_ptr(),
            weights.len(),
            salt,
            ids.as_ptr(),
            ids.len(),
            servers.as_mut_ptr(),
            servers.len(),
        )
    }
}

/// Writes the image of a table to the front of a run, and its number of words to `length`; answers a
/// refusal number, or 0.
pub fn encode(table: &[u32], image: &mut [u32], length: &mut [u32]) -> u32 {
    unsafe {
        archive_encode(
            table.as_ptr(),
            table.len(),
            image.as_mut_ptr(),
            image.len(),
            length.as_mut_ptr(),
            length.len(),
        )
    }
}

/// Reads a table from the words of an image; answers a refusal number, or 0.
pub fn decode(image: &[u32], table: &mut [u32]) -> u32 {
    unsafe { archive_decode(image.as_ptr(), image.len(), table.as_mut_ptr(), table.len()) }
}
