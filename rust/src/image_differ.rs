//! One table written as an image or one image read, on the proved code and on the Rust
//! implementation, and back again by the proved code. Every word is compared.

use crate::archive::{Table, CONTENT_RANGE, TENANTS};
use crate::batch::SHORT;
use crate::calls::{table_word, CAPACITY, COUNT, COUNTERS, SALT, TABLE_WORDS};
use crate::counters::word_of;
use crate::differ::{compare_words, Difference, Tally, UNSTORED};
use crate::image;
use crate::image_cases::Case;
use crate::placement::MAX_SERVERS;
use ticket_archive::{functions as proved, Archive};

/// Table, image, length; answers the number.
type Encode = fn(&[u32], &mut [u32], &mut [u32]) -> u32;

/// Image, table; answers the number.
type Decode = fn(&[u32], &mut [u32]) -> u32;

/// The runs that are lent for an image to be written.
#[derive(Clone)]
pub struct Writing {
    pub table: Vec<u32>,
    pub image: Vec<u32>,
    pub length: Vec<u32>,
}

/// The runs that are lent for an image to be read.
#[derive(Clone)]
pub struct Reading {
    pub image: Vec<u32>,
    pub table: Vec<u32>,
}

/// A word of the image: its kind in the top two bits. A number of 2^30 or more changes the kind.
fn word(kind: u32, number: u32) -> u32 {
    (kind << 30).wrapping_add(number)
}

/// The image of a table by the request's list of words, told here and not by the Rust
/// implementation. A table that is not sound has such words too.
pub fn laid_out(table: &[u32]) -> Vec<u32> {
    let mut words = vec![word(0, table[CAPACITY]), word(1, table[SALT])];
    for server in 0..table[COUNT] as usize {
        let numbers = (0..4).map(|part| table[table_word(part, server)]);
        words.extend(
            [1, 2, 0, 1]
                .into_iter()
                .zip(numbers)
                .map(|(k, n)| word(k, n)),
        );
    }
    words.extend((0..TENANTS).map(|tenant| word(2, table[word_of(tenant)])));
    words
}

/// How many servers an image of so many words has, if it is an image's number of words.
pub fn servers_of(words: usize) -> Option<usize> {
    (0..=MAX_SERVERS).find(|count| 10 + 4 * count == words)
}

/// The table whose numbers are the low 30 bits of an image's words, whatever the kinds are.
pub fn table_of(words: &[u32]) -> Option<Vec<u32>> {
    let count = servers_of(words.len())?;
    let numbers: Vec<u32> = words.iter().map(|word| word % CONTENT_RANGE).collect();
    let mut table = vec![0; TABLE_WORDS];
    [table[CAPACITY], table[SALT], table[COUNT]] = [numbers[0], numbers[1], count as u32];
    for server in 0..count {
        for part in 0..4 {
            table[table_word(part, server)] = numbers[2 + 4 * server + part];
        }
    }
    table[COUNTERS..].copy_from_slice(&numbers[2 + 4 * count..]);
    Some(table)
}

fn is_sound(table: &[u32]) -> bool {
    Table::from_words(table.first_chunk().expect("a whole table")).is_sound()
}

/// Whether a sound table has these words as its image.
fn is_image(words: &[u32]) -> bool {
    table_of(words).is_some_and(|table| is_sound(&table) && laid_out(&table) == words)
}

/// The table with zeros at every position at or above its count.
pub fn cleared(table: &[u32]) -> Vec<u32> {
    let mut cleared = table[..TABLE_WORDS].to_vec();
    for part in 0..4 {
        cleared[table_word(part, table[COUNT] as usize)..table_word(part + 1, 0)].fill(0);
    }
    cleared
}

/// The same by the method of the safe archive.
fn encode_by_method(table: &[u32], image: &mut [u32], length: &mut [u32]) -> u32 {
    let table = *table.first_chunk().expect("a whole table");
    match Archive::from_words(table, &mut []).image(image) {
        Ok(words) => {
            length[0] = words as u32;
            0
        }
        Err(refusal) => refusal as u32,
    }
}

/// The same by the method of the safe archive, which gives no table back where it refuses.
fn decode_by_method(image: &[u32], table: &mut [u32]) -> u32 {
    let (words, number) = match Archive::from_image(image, &mut []) {
        Ok(archive) => (*archive.table(), 0),
        Err(refusal) => ([0; TABLE_WORDS], refusal as u32),
    };
    table[..TABLE_WORDS].copy_from_slice(&words);
    number
}

impl Writing {
    fn by(&self, encode: Encode) -> (u32, Writing) {
        let mut left = self.clone();
        let number = encode(&left.table, &mut left.image, &mut left.length);
        (number, left)
    }

    /// Writes on both sides; answers the number.
    pub fn run(&self, tally: &mut Tally) -> Result<u32, Difference> {
        let (number, left) = self.by(proved::encode);
        self.compare(number, &left)
            .map_err(|text| self.described(text))?;
        tally.images.count(&self.cases(number));
        Ok(number)
    }

    fn compare(&self, number: u32, left: &Writing) -> Result<(), Difference> {
        let (rust_number, rust) = self.by(image::encode_run);
        compare_words("number, against Rust", &[number], &[rust_number])?;
        compare_written("Rust", left, &rust)?;
        compare_words("number, against the request", &[number], &[self.number()])?;
        if number != SHORT {
            let (told, by_method) = self.by(encode_by_method);
            compare_words("number by the method", &[number], &[told])?;
            compare_written("the method", left, &by_method)?;
        }
        match number {
            0 => self.compare_back(left),
            _ => compare_written("what was lent", left, self),
        }
    }

    /// The number by the lengths that are lent and the soundness of the table.
    fn number(&self) -> u32 {
        if self.table.len() < TABLE_WORDS || self.length.is_empty() {
            return SHORT;
        }
        match is_sound(&self.table) {
            false => 1,
            true if self.image.len() < self.needed() => 13,
            true => 0,
        }
    }

    /// What was written is the image and nothing more, and the table read from it is the one lent,
    /// with zeros at or above its count.
    fn compare_back(&self, left: &Writing) -> Result<(), Difference> {
        let mut expected = self.clone();
        let image = laid_out(&self.table);
        expected.image[..image.len()].copy_from_slice(&image);
        expected.length[0] = image.len() as u32;
        compare_written("the request", left, &expected)?;
        let mut table = vec![UNSTORED; TABLE_WORDS];
        let number = proved::decode(&left.image[..image.len()], &mut table);
        compare_words("number of the table read back", &[number], &[0])?;
        compare_words("table read back", &table, &cleared(&self.table))
    }

    fn described(&self, text: Difference) -> Difference {
        let lengths = [&self.table, &self.image, &self.length].map(|run| run.len());
        let table = match self.table.first_chunk() {
            Some(words) => Table::from_words(words).described(),
            None => String::new(),
        };
        format!("encode on runs of {lengths:?}: {text}\n{table}\n")
    }

    /// What was met, by what is lent and the number alone.
    fn cases(&self, number: u32) -> Vec<Case> {
        match number {
            0 => self.written_cases(),
            1 if self.image.len() < self.needed() => vec![Case::Unsound, Case::UnsoundAndShort],
            1 => vec![Case::Unsound],
            13 if self.image.len() + 1 == self.needed() => {
                vec![Case::ShortDestination, Case::OneShort]
            }
            13 => vec![Case::ShortDestination],
            _ if self.table.len() < TABLE_WORDS => vec![Case::ShortTable],
            _ => vec![Case::NoLength],
        }
    }

    fn written_cases(&self) -> Vec<Case> {
        let room = match self.image.len() == self.needed() {
            true => Case::JustEnough,
            false => Case::RoomLeft,
        };
        let mut cases = vec![Case::Written, room];
        match self.table[COUNT] as usize {
            0 => cases.push(Case::WrittenNone),
            MAX_SERVERS => cases.push(Case::WrittenAll),
            _ => {}
        }
        if self.table[..TABLE_WORDS] != cleared(&self.table) {
            cases.push(Case::JunkAbove);
        }
        cases
    }

    /// How many words the image has; for more than 256 servers, how many that of 256 has.
    fn needed(&self) -> usize {
        10 + 4 * (self.table[COUNT] as usize).min(MAX_SERVERS)
    }
}

/// Every word that was left; `other` is what stands in the place of Rust.
fn compare_written(other: &str, proved: &Writing, rust: &Writing) -> Result<(), Difference> {
    let compare = |what: &str, ours: &[u32], theirs: &[u32]| {
        compare_words(&format!("{what}, against {other}"), ours, theirs)
    };
    compare("image", &proved.image, &rust.image)?;
    compare("length", &proved.length, &rust.length)?;
    compare("table lent", &proved.table, &rust.table)
}

impl Reading {
    fn by(&self, decode: Decode) -> (u32, Reading) {
        let mut left = self.clone();
        let number = decode(&left.image, &mut left.table);
        (number, left)
    }

    /// Reads on both sides; answers the number.
    pub fn run(&self, tally: &mut Tally) -> Result<u32, Difference> {
        let (number, left) = self.by(proved::decode);
        self.compare(number, &left)
            .map_err(|text| self.described(text))?;
        tally.images.count(&self.cases(number));
        Ok(number)
    }

    fn compare(&self, number: u32, left: &Reading) -> Result<(), Difference> {
        let (rust_number, rust) = self.by(image::decode_run);
        compare_words("number, against Rust", &[number], &[rust_number])?;
        compare_read("Rust", left, &rust)?;
        compare_words("number, against the request", &[number], &[self.number()])?;
        if number == SHORT {
            return compare_read("what was lent", left, self);
        }
        let (told, by_method) = self.by(decode_by_method);
        compare_words("number by the method", &[number], &[told])?;
        compare_read("the method", left, &by_method)?;
        self.compare_back(number, left)
    }

    /// The number by the length that is lent: the words are accepted exactly when a sound table has
    /// them as its image.
    fn number(&self) -> u32 {
        if self.table.len() < TABLE_WORDS {
            return SHORT;
        }
        match is_image(&self.image) {
            true => 0,
            false => 12,
        }
    }

    /// The table of the words is read, and is written as the same words again; zeros are read where
    /// they are refused.
    fn compare_back(&self, number: u32, left: &Reading) -> Result<(), Difference> {
        let mut expected = self.clone();
        let table = match number {
            0 => table_of(&self.image).expect("an image"),
            _ => vec![0; TABLE_WORDS],
        };
        expected.table[..TABLE_WORDS].copy_from_slice(&table);
        compare_read("the request", left, &expected)?;
        if number == 0 {
            let mut image = vec![UNSTORED; self.image.len()];
            let mut length = [UNSTORED];
            let number = proved::encode(&left.table, &mut image, &mut length);
            compare_words("number of the image written again", &[number], &[0])?;
            compare_words("its length", &length, &[self.image.len() as u32])?;
            compare_words("image written again", &image, &self.image)?;
        }
        Ok(())
    }

    fn described(&self, text: Difference) -> Difference {
        let lengths = [&self.image, &self.table].map(|run| run.len());
        format!("decode on runs of {lengths:?}: {text}\n{:?}\n", self.image)
    }

    /// What was met, by what is lent and the number alone.
    fn cases(&self, number: u32) -> Vec<Case> {
        match (number, servers_of(self.image.len())) {
            (0, Some(0)) => vec![Case::Read, Case::ReadNone],
            (0, Some(MAX_SERVERS)) => vec![Case::Read, Case::ReadAll],
            (0, _) => vec![Case::Read],
            (12, _) => vec![Case::Refused, self.reason()],
            _ => vec![Case::ReadToShort],
        }
    }

    /// Why the words are no image.
    fn reason(&self) -> Case {
        match table_of(&self.image) {
            None => Case::OtherLength,
            Some(table) if laid_out(&table) != self.image => Case::OtherTag,
            Some(_) => Case::OtherNumber,
        }
    }
}

/// Every word that was left; `other` is what stands in the place of Rust.
fn compare_read(other: &str, proved: &Reading, rust: &Reading) -> Result<(), Difference> {
    let compare = |what: &str, ours: &[u32], theirs: &[u32]| {
        compare_words(&format!("{what}, against {other}"), ours, theirs)
    };
    compare("table", &proved.table, &rust.table)?;
    compare("image lent", &proved.image, &rust.image)
}
