//! The image of a table in ordinary Rust, from the sixth request of document 02.

use crate::archive::{Refusal, Table, CONTENT_RANGE, TENANTS};
use crate::batch::SHORT;
use crate::calls::TABLE_WORDS;
use crate::placement::MAX_SERVERS;

/// The words before the servers, those of a server, and those after the servers.
const HEAD: usize = 2;
const SERVER: usize = 4;
const TAIL: usize = TENANTS as usize;

/// The tags of a server's words: weight, used, ReadP numerator and denominator.
const SERVER_TAGS: [u32; SERVER] = [1, 2, 0, 1];
const COUNTER_TAG: u32 = 2;

fn word(tag: u32, content: u32) -> u32 {
    tag << 30 | content
}

/// The content of a word of this tag.
fn content(tag: u32, word: u32) -> Option<u32> {
    (word >> 30 == tag).then_some(word % CONTENT_RANGE)
}

/// How many words the image of a table of so many servers has.
pub fn image_words(count: usize) -> usize {
    HEAD + SERVER * count + TAIL
}

/// How many servers an image of so many words has, if there is one.
fn servers_in(words: usize) -> Option<usize> {
    let rest = words.checked_sub(HEAD + TAIL)?;
    let count = rest / SERVER;
    (rest.is_multiple_of(SERVER) && count <= MAX_SERVERS).then_some(count)
}

impl Table {
    /// Fills a run of the right length with the image of a sound table.
    fn write_image(&self, image: &mut [u32]) {
        let (head, rest) = image.split_at_mut(HEAD);
        head.copy_from_slice(&[word(0, self.capacity), word(1, self.salt)]);
        let (servers, counters) = rest.split_at_mut(SERVER * self.count as usize);
        for (server, words) in servers.chunks_exact_mut(SERVER).enumerate() {
            words.copy_from_slice(&[
                word(SERVER_TAGS[0], self.weights[server]),
                word(SERVER_TAGS[1], self.used[server]),
                word(SERVER_TAGS[2], self.read_numerators[server]),
                word(SERVER_TAGS[3], self.read_denominators[server]),
            ]);
        }
        for (image, &counter) in counters.iter_mut().zip(&self.counters) {
            *image = word(COUNTER_TAG, counter);
        }
    }

    /// The sound table that has these words as its image, with zeros at or above its count.
    fn from_image(words: &[u32]) -> Option<Table> {
        let count = servers_in(words.len())?;
        let (head, rest) = words.split_at(HEAD);
        let (servers, counters) = rest.split_at(SERVER * count);
        let mut table = Table {
            capacity: content(0, head[0])?,
            salt: content(1, head[1])?,
            count: count as u32,
            ..Table::ZERO
        };
        for (server, words) in servers.chunks_exact(SERVER).enumerate() {
            table.weights[server] = content(SERVER_TAGS[0], words[0])?;
            table.used[server] = content(SERVER_TAGS[1], words[1])?;
            table.read_numerators[server] = content(SERVER_TAGS[2], words[2])?;
            table.read_denominators[server] = content(SERVER_TAGS[3], words[3])?;
        }
        for (counter, &word) in table.counters.iter_mut().zip(counters) {
            *counter = content(COUNTER_TAG, word)?;
        }
        table.is_sound().then_some(table)
    }
}

/// The image of a table given as words.
pub fn encode(table: &[u32; TABLE_WORDS]) -> Result<Vec<u32>, Refusal> {
    let mut image = vec![0; image_words(MAX_SERVERS)];
    let words = encode_to(table, &mut image)?;
    image.truncate(words);
    Ok(image)
}

/// The words of the table that has this image.
pub fn decode(image: &[u32]) -> Result<[u32; TABLE_WORDS], Refusal> {
    let table = Table::from_image(image).ok_or(Refusal::BadImage)?;
    Ok(table.words())
}

/// Writes the image to the front of a run; answers how many words it has.
fn encode_to(table: &[u32; TABLE_WORDS], image: &mut [u32]) -> Result<usize, Refusal> {
    let table = Table::from_words(table);
    if !table.is_sound() {
        return Err(Refusal::Unsound);
    }
    let words = image_words(table.count as usize);
    let image = image.get_mut(..words).ok_or(Refusal::ShortDestination)?;
    table.write_image(image);
    Ok(words)
}

/// The Rust implementation behind the interface of the proved `encode`.
pub fn encode_run(table: &[u32], image: &mut [u32], length: &mut [u32]) -> u32 {
    let (Some(table), Some(length)) = (table.first_chunk(), length.first_mut()) else {
        return SHORT;
    };
    match encode_to(table, image) {
        Ok(words) => {
            *length = words as u32;
            0
        }
        Err(refusal) => refusal as u32,
    }
}

/// The Rust implementation behind the interface of the proved `decode`.
pub fn decode_run(image: &[u32], table: &mut [u32]) -> u32 {
    let Some(words) = table.first_chunk_mut() else {
        return SHORT;
    };
    let (table, number) = match Table::from_image(image) {
        Some(table) => (table, 0),
        None => (Table::ZERO, Refusal::BadImage as u32),
    };
    table.store(words);
    number
}
