//! Images with some words changed, and words that are an image's or are not.

use crate::archive::{CONTENT_RANGE, TENANTS};
use crate::counters;
use crate::image_differ::servers_of;
use crate::placement::MAX_SERVERS;
use crate::random::Random;
use crate::salts;

/// A change of the image of a sound table.
type Change = fn(&mut Random, &mut Vec<u32>);

/// Each with its name, and the least number of times that what it leaves is accepted and is refused
/// for 10,000 calls asked for: about a third of what it is.
pub const CHANGES: [(&str, Change, [u64; 2]); 12] = [
    ("none", |_, _| (), [10, 0]),
    ("a bit", |random, image| bit(random, image), [4, 6]),
    ("a tag", |random, image| tag(random, image), [0, 11]),
    ("a content", |random, image| content(random, image), [7, 3]),
    (
        "two words",
        |random, image| two_words(random, image),
        [2, 8],
    ),
    (
        "two exchanged",
        |random, image| two_exchanged(random, image),
        [2, 8],
    ),
    (
        "two neighbours exchanged",
        |random, image| neighbours(random, image),
        [4, 6],
    ),
    ("1 to 5 words fewer", fewer, [0, 10]),
    ("1 to 5 words more", more, [0, 10]),
    ("a server less or more", servers, [8, 1]),
    ("a counter", |random, image| counter(random, image), [10, 0]),
    (
        "an entry used",
        |random, image| used(random, image),
        [10, 0],
    ),
];

/// Where a word stands: as often in the first two as among the counters, and twice as often among the
/// servers.
fn place(random: &mut Random, image: &[u32]) -> usize {
    let last = image.len() as u32;
    let counters = last - TENANTS;
    let at = match random.below(4) {
        0 => random.below(2),
        1 => random.between(counters, last - 1),
        _ => random.between(2, counters),
    };
    at as usize
}

fn bit(random: &mut Random, image: &mut [u32]) {
    let at = place(random, image);
    let bit = match random.below(4) {
        0 => random.between(30, 31),
        1 => random.below(5),
        _ => random.below(32),
    };
    image[at] ^= 1 << bit;
}

fn tag(random: &mut Random, image: &mut [u32]) {
    let at = place(random, image);
    image[at] ^= random.between(1, 3) << 30;
}

fn content(random: &mut Random, image: &mut [u32]) {
    let at = place(random, image);
    image[at] = image[at] & (3 << 30) | some_content(random, image);
}

/// A content at an edge of the rules, that of another word, or any.
fn some_content(random: &mut Random, image: &[u32]) -> u32 {
    let content = match random.below(4) {
        0 => random.pick(&[
            0,
            1,
            2,
            65_536,
            65_537,
            1 << 24,
            (1 << 24) + 1,
            (1 << 30) - 1,
        ]),
        1 => random.pick(image),
        2 => image[0].wrapping_add(random.below(2)),
        _ => random.word() >> random.below(32),
    };
    content % CONTENT_RANGE
}

fn two_words(random: &mut Random, image: &mut [u32]) {
    for _ in 0..2 {
        let change = random.pick(&[bit, tag, content, content]);
        change(random, image);
    }
}

fn two_exchanged(random: &mut Random, image: &mut [u32]) {
    let (one, other) = (place(random, image), place(random, image));
    image.swap(one, other);
}

fn neighbours(random: &mut Random, image: &mut [u32]) {
    let at = place(random, image).min(image.len() - 2);
    image.swap(at, at + 1);
}

/// Words taken away at the end, at the front, or together anywhere.
fn fewer(random: &mut Random, image: &mut Vec<u32>) {
    let words = random.between(1, 5) as usize;
    let at = edge(random, image.len() - words);
    image.drain(at..at + words);
}

/// Words put in at the end, at the front, or together anywhere: any, zeros, counters, or those that
/// stand there.
fn more(random: &mut Random, image: &mut Vec<u32>) {
    let words = random.between(1, 5) as usize;
    let at = edge(random, image.len() - words);
    let new: Vec<u32> = match random.below(5) {
        0 => (0..words).map(|_| random.word()).collect(),
        1 => vec![0; words],
        2 => vec![2 << 30; words],
        _ => image[at..at + words].to_vec(),
    };
    let at = match random.one_in(2) {
        true => image.len(),
        false => at,
    };
    image.splice(at..at, new);
}

/// One end, the other, or a place between.
fn edge(random: &mut Random, last: usize) -> usize {
    match random.below(4) {
        0 | 1 => last,
        2 => 0,
        _ => random.below(last as u32 + 1) as usize,
    }
}

/// A server taken away or doubled, where there is one.
fn servers(random: &mut Random, image: &mut Vec<u32>) {
    let count = servers_of(image.len()).expect("an image");
    if count == 0 {
        return;
    }
    let at = 2 + 4 * edge(random, count - 1);
    if random.one_in(2) {
        image.drain(at..at + 4);
    } else {
        let new = image[at..at + 4].to_vec();
        image.splice(at..at, new);
    }
}

fn counter(random: &mut Random, image: &mut [u32]) {
    let at = image.len() - 1 - random.below(TENANTS) as usize;
    image[at] = 2 << 30 | counters::counter(random);
}

/// The entries used of a server, where there is one.
fn used(random: &mut Random, image: &mut [u32]) {
    let count = servers_of(image.len()).expect("an image");
    if count > 0 {
        let at = 3 + 4 * edge(random, count - 1);
        image[at] = 2 << 30 | random.below(image[0] + 1);
    }
}

/// An image's number of words or one next to it, or few.
fn length(random: &mut Random) -> usize {
    let longest = 10 + 4 * MAX_SERVERS;
    match random.below(8) {
        0 => random.pick(&[0, 1, 2, 9, 11]),
        1 => random.pick(&[longest - 1, longest + 1, longest + 4]),
        2 => longest,
        3 => random.below(60) as usize,
        4 | 5 => 10,
        _ => 10 + 4 * random.between(1, 4) as usize,
    }
}

/// Words that no table was there for: any; those of the right tags with any content; and those of the
/// right tags whose contents are mostly in range.
pub fn any_words(random: &mut Random) -> Vec<u32> {
    let length = length(random);
    let kind = random.below(4);
    let capacity = random.between(1, 1 << 16);
    let counters = length.saturating_sub(TENANTS as usize);
    let word = |at: usize, random: &mut Random| {
        let (tag, fitting) = match at {
            0 => (0, capacity),
            1 => (1, salts::salt(random)),
            _ if at >= counters => (2, counters::counter(random)),
            _ => match at % 4 {
                2 => (1, random.below(capacity + 1)),
                3 => (2, random.below(capacity + 1)),
                0 => (0, 7),
                _ => (1, 7),
            },
        };
        match kind {
            0 => random.word(),
            1 => tag << 30 | random.below(CONTENT_RANGE),
            2 if random.one_in(40) => tag << 30 | random.word() >> random.between(2, 31),
            _ => tag << 30 | fitting,
        }
    };
    (0..length).map(|at| word(at, random)).collect()
}
