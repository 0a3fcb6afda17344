//! The cases of crashes that are met, and how often they are.

use std::fmt;

/// What a crash meets, or a body or a recover beside crashes.
#[derive(Clone, Copy)]
pub enum Case {
    Dark,
    Right,
    FirstJunk,
    LastJunk,
    OtherJunk,
    AtValue,
    AtId,
    AtReplaced,
    AtDeleted,
    Nothing,
    Spent,
    Hidden,
    Shown,
    Kept,
    Gone,
    Overwrites,
    ManyMarks,
    ManyServers,
    AfterCrash,
    GoneOn,
    Whole,
    Refused,
    Recovered,
    OtherBody,
    OtherBodyRefused,
    OtherCall,
    OtherRecover,
    RecoverChanges,
    RecoverUnsound,
    RecoverShort,
    UnsoundAndShort,
    TooShort,
}

/// Each case in that order, with the least number of times that it is met for 10,000 crashes asked
/// for: about a third of what it is.
const CASES: [(&str, u64); 32] = [
    ("word dark", 600),
    ("word right", 600),
    ("junk of content 0", 600),
    ("junk of content 2^30 - 2", 600),
    ("other junk", 600),
    ("at a value word", 1200),
    ("at an id word", 1200),
    ("at a mark of a write", 500),
    ("at a mark of a delete", 250),
    ("nothing left", 250),
    ("entry spent", 2000),
    ("entry spent that bears the id", 80),
    ("write shown", 700),
    ("delete not shown", 90),
    ("delete shown", 190),
    ("write of an id that is present", 120),
    ("call of three marks or more", 1),
    ("call with marks on two servers or more", 12),
    ("after an earlier crash", 2200),
    ("list gone on from there", 100),
    ("body with no burn left over", 600),
    ("body of a refused call", 400),
    ("recover with no crash before", 1000),
    ("body on other words", 11),
    ("body on other words refused", 37),
    ("number that has no burns", 18),
    ("recover on other words", 66),
    ("recover that changes the table", 18),
    ("recover refused by 1", 7),
    ("recover refused by 5", 6),
    ("recover refused by 1 where 5 applies too", 1),
    ("too short runs", 66),
];

/// How often each case was met.
#[derive(Default)]
pub struct CrashCases {
    /// Crashes, each with its recover and its lookups.
    pub run: u64,
    /// Bodies with a recover on other words.
    pub rounds: u64,
    met: [u64; CASES.len()],
}

impl CrashCases {
    pub fn count(&mut self, case: Case) {
        self.met[case as usize] += 1;
    }

    /// The cases that were met too rarely for so many crashes asked for.
    pub fn missed(&self, asked: u64) -> Vec<&'static str> {
        let cases = CASES.iter().zip(self.met);
        let rare = cases.filter(|((_, least), met)| *met < asked * least / 10_000);
        rare.map(|((name, _), _)| *name).collect()
    }
}

impl fmt::Display for CrashCases {
    fn fmt(&self, out: &mut fmt::Formatter<'_>) -> fmt::Result {
        write!(out, "{}", self.run)?;
        for ((name, _), met) in CASES.iter().zip(self.met) {
            write!(out, ", {name}: {met}")?;
        }
        Ok(())
    }
}
