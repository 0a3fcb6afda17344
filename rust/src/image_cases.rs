//! The cases of images that are met, and how often they are.

use std::fmt;

use crate::image_tables::UNSOUND;
use crate::image_words::CHANGES;

/// What a table to be written or an image to be read meets.
#[derive(Clone, Copy)]
pub enum Case {
    Written,
    Unsound,
    ShortDestination,
    ShortTable,
    NoLength,
    UnsoundAndShort,
    JustEnough,
    OneShort,
    RoomLeft,
    WrittenNone,
    WrittenAll,
    JunkAbove,
    Read,
    Refused,
    ReadToShort,
    OtherLength,
    OtherTag,
    OtherNumber,
    ReadNone,
    ReadAll,
}

/// Each case in that order, with the least number of times that it is met for 10,000 calls asked
/// for: about a third of what it is, and less where few tables are many images.
const CASES: [(&str, u64); 20] = [
    ("written", 44),
    ("refused by 1", 19),
    ("refused by 13", 21),
    ("from too short a table", 12),
    ("with no word for the length", 10),
    ("refused by 1 where 13 applies too", 7),
    ("written with just enough room", 23),
    ("refused for one word", 8),
    ("written with room left", 21),
    ("written of no server", 2),
    ("written of 256 servers", 2),
    ("written with words above the count", 14),
    ("read", 85),
    ("refused by 12", 110),
    ("read to too short a table", 28),
    ("refused for the length", 31),
    ("refused for a tag", 43),
    ("refused as no sound table's", 35),
    ("read of no server", 8),
    ("read of 256 servers", 5),
];

/// The least number of times that each way to be unsound is met on each side, likewise.
const LEAST_UNSOUND: u64 = 1;

/// How often each case was met.
#[derive(Default)]
pub struct ImageCases {
    /// Images written and read, refused ones too.
    pub run: u64,
    met: [u64; CASES.len()],
    /// The tables that were refused by 1 and the images that were refused by 12, by what is unsound.
    unsound: [[u64; 2]; UNSOUND.len()],
    /// The images that were accepted and that were refused, by what was changed.
    changes: [[u64; 2]; CHANGES.len()],
}

impl ImageCases {
    /// One image written or read.
    pub fn count(&mut self, cases: &[Case]) {
        self.run += 1;
        for &case in cases {
            self.met[case as usize] += 1;
        }
    }

    pub fn count_unsound(&mut self, kind: usize, number: u32) {
        match number {
            1 => self.unsound[kind][0] += 1,
            12 => self.unsound[kind][1] += 1,
            _ => {}
        }
    }

    pub fn count_change(&mut self, kind: usize, number: u32) {
        match number {
            0 => self.changes[kind][0] += 1,
            12 => self.changes[kind][1] += 1,
            _ => {}
        }
    }

    /// The cases that were met too rarely for so many calls asked for.
    pub fn missed(&self, asked: u64) -> Vec<String> {
        let is_rare = |met: u64, least: u64| met < asked * least / 10_000;
        let cases = CASES.iter().zip(self.met);
        let rare = cases.filter(|((_, least), met)| is_rare(*met, *least));
        let mut names: Vec<String> = rare.map(|((name, _), _)| name.to_string()).collect();
        for ((name, _), met) in UNSOUND.iter().zip(self.unsound) {
            if met.iter().any(|&met| is_rare(met, LEAST_UNSOUND)) {
                names.push(format!("an unsound {name}"));
            }
        }
        for ((name, _, least), met) in CHANGES.iter().zip(self.changes) {
            if met
                .iter()
                .zip(least)
                .any(|(&met, &least)| is_rare(met, least))
            {
                names.push(format!("{name} changed"));
            }
        }
        names
    }
}

impl fmt::Display for ImageCases {
    fn fmt(&self, out: &mut fmt::Formatter<'_>) -> fmt::Result {
        write!(out, "{}", self.run)?;
        for ((name, _), met) in CASES.iter().zip(self.met) {
            write!(out, ", {name}: {met}")?;
        }
        write!(out, "\nunsound tables written and read: ")?;
        for (at, ((name, _), [written, read])) in UNSOUND.iter().zip(self.unsound).enumerate() {
            let comma = if at == 0 { "" } else { ", " };
            write!(out, "{comma}{name}: {written} and {read}")?;
        }
        write!(out, "\nimages accepted and refused after a change: ")?;
        for (at, ((name, ..), [accepted, refused])) in CHANGES.iter().zip(self.changes).enumerate()
        {
            let comma = if at == 0 { "" } else { ", " };
            write!(out, "{comma}{name}: {accepted} and {refused}")?;
        }
        Ok(())
    }
}
