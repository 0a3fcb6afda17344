//! The kinds of images that are compared.

use crate::batch::SHORT;
use crate::batch_suites::begun;
use crate::calls::{encode, Call, COUNT, REPLY_WORDS, TABLE_WORDS};
use crate::differ::{below_count, compare_words, Difference, Lent, Tally, UNREAD, UNSTORED};
use crate::image;
use crate::image_differ::{laid_out, Reading, Writing};
use crate::image_tables::{count, sound, unsound, UNSOUND};
use crate::image_words::{any_words, CHANGES};
use crate::placement::MAX_SERVERS;
use crate::random::Random;
use crate::suites::Suite;
use ticket_archive::functions as proved;

/// Each suite with the images that it makes for 10,000 calls asked for.
pub const SUITES: [(&str, Suite, u64); 5] = [
    ("images of sound tables", sound_tables, 250),
    ("images of unsound tables", unsound_tables, 150),
    ("images of tables that calls left", left_by_calls, 50),
    ("changed images", changed, 450),
    ("images of any words", of_any_words, 100),
];

fn any_run(random: &mut Random, length: usize) -> Vec<u32> {
    (0..length).map(|_| random.word()).collect()
}

/// A table lent with all its words, or now and then with one too few, with none, or with more.
fn lent(random: &mut Random, mut table: Vec<u32>) -> Vec<u32> {
    match random.below(16) {
        0 => table.truncate(TABLE_WORDS - 1),
        1 => table.truncate(random.below(TABLE_WORDS as u32) as usize),
        2..=4 => {
            let more = random.between(1, 5) as usize;
            table.extend(any_run(random, more));
        }
        _ => {}
    }
    table
}

/// A destination whose length is an edge for an image of so many words, with any content.
fn destination(random: &mut Random, words: usize) -> Vec<u32> {
    let length = match random.below(8) {
        0 | 1 => words,
        2 => words - 1,
        3 => words + 1,
        4 => words + random.between(2, 40) as usize,
        5 => random.below(words as u32) as usize,
        6 => random.pick(&[0, 1, 9, 10]),
        _ => random.pick(&[1_033, 1_034, 1_035, 1_038]),
    };
    any_run(random, length)
}

/// The table with a destination and a run for the length.
fn writing(random: &mut Random, table: Vec<u32>) -> Writing {
    let words = 10 + 4 * (table[COUNT] as usize).min(MAX_SERVERS);
    let length = random.pick(&[0, 1, 1, 1, 1, 1, 2, 3]);
    Writing {
        table: lent(random, table),
        image: destination(random, words),
        length: any_run(random, length),
    }
}

/// The image with a table that holds any words.
fn reading(random: &mut Random, image: Vec<u32>) -> Reading {
    let table = any_run(random, TABLE_WORDS);
    Reading {
        image,
        table: lent(random, table),
    }
}

/// The number is one of these; this is told here and not by the Rust implementation.
fn expect(number: u32, numbers: &[u32]) -> Result<(), Difference> {
    match numbers.contains(&number) {
        true => Ok(()),
        false => Err(format!("number {number} in the place of {numbers:?}")),
    }
}

/// A sound table of any number of servers, with room or without, and its image read.
fn sound_tables(random: &mut Random, tally: &mut Tally) -> Result<(), Difference> {
    let servers = count(random);
    let table = sound(random, servers);
    for _ in 0..4 {
        let number = writing(random, table.clone()).run(tally)?;
        expect(number, &[0, 13, SHORT])?;
    }
    let number = reading(random, laid_out(&table)).run(tally)?;
    expect(number, &[0, SHORT])?;
    above_the_count(random, &table)
}

/// Tables that are equal below the count have the same image, and the Rust implementation alone gives
/// it back.
fn above_the_count(random: &mut Random, table: &[u32]) -> Result<(), Difference> {
    let images = [table.to_vec(), any_above(random, table)].map(|table| {
        let mut image = vec![UNSTORED; 10 + 4 * table[COUNT] as usize];
        proved::encode(&table, &mut image, &mut [UNSTORED]);
        image
    });
    compare_words("image, words above the count", &images[0], &images[1])?;
    let back = image::decode(&images[0]).and_then(|table| image::encode(&table));
    match back {
        Ok(words) => compare_words("image there and back by Rust", &images[0], &words),
        Err(refusal) => Err(format!("{refusal:?} by Rust of {:?}", images[0])),
    }
}

/// The table with other words above its count.
fn any_above(random: &mut Random, table: &[u32]) -> Vec<u32> {
    let mut other = table.to_vec();
    let count = table[COUNT] as usize;
    for part in other[3..3 + 4 * MAX_SERVERS].chunks_exact_mut(MAX_SERVERS) {
        part[count..].fill_with(|| random.word());
    }
    other
}

/// A table with one number out of range, written and read.
fn unsound_tables(random: &mut Random, tally: &mut Tally) -> Result<(), Difference> {
    for (kind, (name, _)) in UNSOUND.iter().enumerate() {
        let table = unsound(random, kind);
        let number = writing(random, table.clone()).run(tally)?;
        tally.images.count_unsound(kind, number);
        expect(number, &[1, SHORT]).map_err(|text| format!("{name}: {text}"))?;
        let number = reading(random, laid_out_as_many(table)).run(tally)?;
        tally.images.count_unsound(kind, number);
        expect(number, &[12, SHORT]).map_err(|text| format!("{name}: {text}"))?;
    }
    Ok(())
}

/// The words of a table; one of more than 256 servers has one more, like its last.
fn laid_out_as_many(mut table: Vec<u32>) -> Vec<u32> {
    let is_more = table[COUNT] as usize > MAX_SERVERS;
    table[COUNT] = table[COUNT].min(MAX_SERVERS as u32);
    let mut words = laid_out(&table);
    if is_more {
        let last = words[2 + 4 * (MAX_SERVERS - 1)..][..4].to_vec();
        words.splice(2..2, last);
    }
    words
}

/// The table of an archive, written, read and gone on from: the proved code replies the same, and
/// leaves the same medium and, below the count, the same table.
fn left_by_calls(random: &mut Random, tally: &mut Tally) -> Result<(), Difference> {
    let (shape, mut one) = begun(random, tally)?;
    one.table.truncate(TABLE_WORDS);
    writing(random, one.table.clone()).run(tally)?;
    let words = 10 + 4 * one.table[COUNT] as usize;
    let mut kept = Writing {
        table: one.table.clone(),
        image: vec![UNSTORED; words],
        length: vec![UNSTORED],
    };
    expect(kept.run(tally)?, &[0])?;
    proved::encode(&kept.table, &mut kept.image, &mut kept.length);
    let mut other = Lent {
        table: any_run(random, TABLE_WORDS),
        medium: one.medium.clone(),
    };
    let number = proved::decode(&kept.image, &mut other.table);
    expect(number, &[0])?;
    let calls: Vec<Call> = (0..20).map(|_| shape.call(random)).collect();
    let [ours, theirs] = [&mut one, &mut other].map(|lent| replies(lent, &calls));
    compare_words("replies, the image in the place of Rust", &ours, &theirs)
        .and_then(|()| compare_words("medium", &one.medium, &other.medium))
        .and_then(|()| {
            compare_words(
                "table",
                &below_count(&one.table),
                &below_count(&other.table),
            )
        })
        .map_err(|text| format!("{text}\n{:?}\n{calls:?}\n", kept.image))
}

/// What the proved code replies to a list.
fn replies(lent: &mut Lent, calls: &[Call]) -> Vec<u32> {
    let mut replies = vec![UNSTORED; REPLY_WORDS * calls.len()];
    let words = encode(calls, UNREAD);
    proved::resume(&mut lent.table, &words, &mut lent.medium, &mut replies);
    replies
}

/// The image of a sound table after each change.
fn changed(random: &mut Random, tally: &mut Tally) -> Result<(), Difference> {
    let servers = count(random);
    let image = laid_out(&sound(random, servers));
    for (kind, (name, change, _)) in CHANGES.iter().enumerate() {
        let mut words = image.clone();
        change(random, &mut words);
        let number = reading(random, words)
            .run(tally)
            .map_err(|text| format!("{name} changed: {text}"))?;
        tally.images.count_change(kind, number);
    }
    Ok(())
}

fn of_any_words(random: &mut Random, tally: &mut Tally) -> Result<(), Difference> {
    let words = any_words(random);
    reading(random, words).run(tally).map(|_| ())
}
