//! One crash of the writer (document 02, item 7), and every crash of one call: at every burn, with every
//! kind of word under the beam. Each is recovered, and every id is looked up. Reply, table and medium
//! are compared with those of the Rust implementation, and the lookups with the ledger.

use crate::archive::{Table, BLANK, CONTENT_RANGE};
use crate::calls::{Call, Reply, INVALIDATED, REFUSAL, REPLY_WORDS, TABLE_WORDS};
use crate::crash_cases::Case;
use crate::differ::{compare_live, compare_words, Difference, Tally, UNREAD, UNSTORED};
use crate::ledger::{Ledger, Left};
use crate::lists::Shape;
use crate::random::Random;
use ticket_archive::functions as proved;

const JUNK_TAG: u32 = 3 << 30;

/// The last content of junk: the one after it makes a blank word.
const LAST_JUNK: u32 = CONTENT_RANGE - 2;

type ReplyWords = [u32; REPLY_WORDS];

/// An archive by the proved code, by the Rust implementation and by the ledger, over one medium.
#[derive(Clone)]
pub struct Sides {
    pub table: [u32; TABLE_WORDS],
    pub rust: Table,
    ledger: Ledger,
    medium: Vec<u32>,
    is_crashed: bool,
}

/// What a body left.
struct Body {
    reply: ReplyWords,
    sides: Sides,
}

/// A call that is crashed, and what is known of it before.
struct Crashed<'l> {
    call: Call,
    id: u32,
    /// Where a write goes: its server and its entry.
    target: Option<(usize, usize)>,
    server_words: usize,
    /// The ids that are looked up, and what was replied to each before the call.
    ids: &'l [u32],
    before: Vec<ReplyWords>,
}

impl Sides {
    pub fn new(shape: &Shape, medium_len: usize) -> Self {
        let rust = shape.table();
        Sides {
            table: rust.words(),
            ledger: Ledger::new(shape.capacity, shape.salt, medium_len),
            rust,
            medium: vec![BLANK; medium_len],
            is_crashed: false,
        }
    }

    /// Both sides have the same table and medium.
    fn compare(&self, rust_medium: &[u32]) -> Result<(), Difference> {
        compare_words("medium", &self.medium, rust_medium)?;
        compare_words("table", &self.table, &self.rust.words())
    }

    /// A plain call on the three sides.
    pub fn run(&mut self, call: Call) -> Result<ReplyWords, Difference> {
        let mut reply = [UNSTORED; REPLY_WORDS];
        let words = call.words(UNREAD);
        let mut medium = self.medium.clone();
        proved::call(&mut self.table, &mut self.medium, &words, &mut reply);
        let rust = self.rust.run(&mut medium, call);
        compare_words("reply", &reply, &rust.words())?;
        self.compare(&medium)?;
        let mut expected = self.ledger.enter(call).words();
        expected[INVALIDATED] = reply[INVALIDATED];
        compare_words("reply, the ledger in the place of Rust", &reply, &expected)?;
        compare_live(&self.medium, self.ledger.writes())?;
        Ok(reply)
    }

    /// The body of a call with a number of burns, on copies of both sides. The ledger is as it was.
    fn body(&self, call: Call, burns: u32) -> Result<Body, Difference> {
        let mut sides = self.clone();
        let mut reply = [UNSTORED; REPLY_WORDS];
        let words = call.body_words(burns, UNREAD);
        let number = proved::call_some(&mut sides.table, &mut sides.medium, &words, &mut reply);
        compare_words("number", &[number], &reply[..1])?;
        let mut medium = self.medium.clone();
        let rust = sides.rust.run_some(&mut medium, call, burns);
        compare_words("reply", &reply, &rust.words())?;
        sides.compare(&medium)?;
        Ok(Body { reply, sides })
    }

    /// Recovers both tables; the medium is only read.
    pub fn recover(&mut self) -> Result<(), Difference> {
        let number = proved::recover(&mut self.table, &self.medium);
        let told = self.rust.recover(&self.medium);
        let expected = told.map_or_else(|refusal| refusal as u32, |()| 0);
        compare_words("number of recover", &[number], &[expected])?;
        compare_words("recovered table", &self.table, &self.rust.words())
    }

    /// What the proved lookups of these ids reply. The counters that they leave are thrown away.
    fn lookups(&self, ids: &[u32]) -> Vec<ReplyWords> {
        let mut table = self.table;
        let mut medium = self.medium.clone();
        let mut look_up = |&id: &u32| {
            let mut reply = [UNSTORED; REPLY_WORDS];
            let words = Call::lookup(id).words(UNREAD);
            proved::call(&mut table, &mut medium, &words, &mut reply);
            reply
        };
        ids.iter().map(&mut look_up).collect()
    }

    fn entry(&self, server: usize, entry: usize) -> &[u32] {
        let at = 3 * (self.rust.capacity as usize * server + entry);
        &self.medium[at..at + 3]
    }
}

/// How many burns an accepted call makes, by its reply.
fn burns_of(call: Call, reply: &ReplyWords) -> u32 {
    match (reply[REFUSAL], call) {
        (0, Call::Write { .. }) => 2 + reply[INVALIDATED],
        (0, _) => reply[INVALIDATED],
        _ => 0,
    }
}

/// The words under the beam that a crash may leave, for one that would be `right`.
fn beams(random: &mut Random, right: u32) -> [(Case, u32); 5] {
    let other = random.between(1, LAST_JUNK - 1);
    [
        (Case::Dark, BLANK),
        (Case::Right, right),
        (Case::FirstJunk, JUNK_TAG),
        (Case::LastJunk, JUNK_TAG | LAST_JUNK),
        (Case::OtherJunk, JUNK_TAG | other),
    ]
}

impl<'l> Crashed<'l> {
    fn new(sides: &Sides, call: Call, id: u32, ids: &'l [u32]) -> Self {
        Crashed {
            call,
            id,
            target: sides.ledger.target(call),
            server_words: 3 * sides.rust.capacity as usize,
            ids,
            before: sides.lookups(ids),
        }
    }

    /// Whether the id was present before.
    fn was_present(&self) -> bool {
        let at = self.ids.iter().position(|&id| id == self.id);
        at.is_some_and(|at| self.before[at][REFUSAL] == 0)
    }

    /// How much the call marks.
    fn count_marks(&self, media: &[Vec<u32>], tally: &mut Tally) {
        let burns = media.windows(2).map(|pair| next_burn(&pair[0], &pair[1]));
        let marks = burns
            .flatten()
            .skip(if self.target.is_some() { 2 } else { 0 });
        let servers: Vec<usize> = marks.map(|at| at / self.server_words).collect();
        if servers.len() >= 3 {
            tally.crashes.count(Case::ManyMarks);
        }
        if servers.first() != servers.last() {
            tally.crashes.count(Case::ManyServers);
        }
        if self.target.is_some() && self.was_present() {
            tally.crashes.count(Case::Overwrites);
        }
    }

    /// What burn is the one under the beam.
    fn place(&self, burn: usize) -> Case {
        match (self.call, burn) {
            (Call::Write { .. }, 0) => Case::AtValue,
            (Call::Write { .. }, 1) => Case::AtId,
            (Call::Write { .. }, _) => Case::AtReplaced,
            _ => Case::AtDeleted,
        }
    }

    /// What the call left, by the medium.
    fn left(&self, sides: &Sides) -> Left {
        let met = sides.rust.meets(&sides.medium, self.id);
        match self.target {
            Some((server, entry)) => Left {
                touched: sides.entry(server, entry) != [BLANK; 3],
                shows: met == self.target,
            },
            None => Left {
                touched: false,
                shows: met.is_none(),
            },
        }
    }

    fn outcome(&self, sides: &Sides, left: Left) -> Case {
        match (self.target, left.touched, left.shows) {
            (None, _, true) => Case::Gone,
            (None, _, false) => Case::Kept,
            (_, _, true) => Case::Shown,
            (_, false, _) => Case::Nothing,
            (Some((server, entry)), _, _) => {
                let words = sides.entry(server, entry);
                match words[0] == self.id && words[2] == BLANK {
                    true => Case::Hidden,
                    false => Case::Spent,
                }
            }
        }
    }

    /// The id's old answer stands, or the new one: the value of a write, or absent.
    fn is_old_or_new(&self, old: &ReplyWords, reply: &ReplyWords) -> bool {
        let told = Reply {
            value: match self.call {
                Call::Write { value, .. } => value,
                _ => 0,
            },
            refusal: if self.target.is_some() { 0 } else { 8 },
            ..Reply::default()
        };
        let without_opened = |reply: &ReplyWords| [0, 1, 2, 3, 5, 6, 7].map(|at| reply[at]);
        reply == old || without_opened(reply) == without_opened(&told.words())
    }

    /// Every lookup after the crash: the ledger's answer, and for the other ids that of before.
    fn compare_lookups(&self, sides: &mut Sides) -> Result<(), Difference> {
        let replies = sides.lookups(self.ids);
        for ((&id, old), reply) in self.ids.iter().zip(&self.before).zip(&replies) {
            let expected = sides.ledger.enter(Call::lookup(id)).words();
            let is_right = match id == self.id {
                true => self.is_old_or_new(old, reply),
                false => reply == old,
            };
            if *reply != expected || !is_right {
                return Err(format!(
                    "id {id}: {old:?} before, {reply:?} after the crash, ledger {expected:?}"
                ));
            }
        }
        Ok(())
    }

    /// One crash: the table as it was before the call, the medium as the beam left it.
    fn recovered(
        &self,
        sides: &Sides,
        medium: Vec<u32>,
        tally: &mut Tally,
    ) -> Result<Sides, Difference> {
        let mut after = Sides {
            medium,
            is_crashed: true,
            ..sides.clone()
        };
        after.recover()?;
        let left = self.left(&after);
        tally.crashes.count(self.outcome(&after, left));
        after.ledger.crash(self.call, left);
        tally.crashes.run += 1;
        if sides.is_crashed {
            tally.crashes.count(Case::AfterCrash);
        }
        self.compare_lookups(&mut after)?;
        compare_live(&after.medium, after.ledger.writes())?;
        Ok(after)
    }
}

/// The one word in which two media differ.
fn next_burn(before: &[u32], after: &[u32]) -> Result<usize, Difference> {
    let mut differing = (0..before.len()).filter(|&at| before[at] != after[at]);
    match (differing.next(), differing.next()) {
        (Some(at), None) if before[at] == BLANK => Ok(at),
        _ => Err("two bodies do not differ in one blank word".to_string()),
    }
}

/// The media that the bodies of a call leave, from no burn to all. With burns left over the table is
/// as lent; with none, and with numbers above, the body is the plain call.
fn bodies(sides: &Sides, call: Call, tally: &mut Tally) -> Result<Vec<Vec<u32>>, Difference> {
    let mut plain = sides.clone();
    let reply = plain.run(call)?;
    let all = burns_of(call, &reply);
    let mut media = Vec::new();
    for burns in (0..=all + 1).chain([u32::MAX]) {
        let body = sides.body(call, burns)?;
        compare_words("reply, plain call", &body.reply, &reply)?;
        if burns < all {
            compare_words("table, as lent", &body.sides.table, &sides.table)?;
        } else {
            compare_words("table, plain call", &body.sides.table, &plain.table)?;
            compare_words("medium, plain call", &body.sides.medium, &plain.medium)?;
            tally.crashes.count(match reply[REFUSAL] {
                0 => Case::Whole,
                _ => Case::Refused,
            });
        }
        media.push(body.sides.medium);
    }
    media.truncate(all as usize + 1);
    Ok(media)
}

/// What a crash left.
pub struct After {
    /// Which burn was under the beam, and how the beam left its word.
    pub burn: usize,
    pub beam: Case,
    pub sides: Sides,
}

/// Every crash of a call: none for a call that is refused, or is no write and no delete.
pub fn crash_everywhere(
    random: &mut Random,
    sides: &Sides,
    call: Call,
    ids: &[u32],
    tally: &mut Tally,
) -> Result<Vec<After>, Difference> {
    let (Call::Write { id, .. } | Call::Delete { id, .. }) = call else {
        return Ok(Vec::new());
    };
    let media = bodies(sides, call, tally)?;
    let mut ids = ids.to_vec();
    if id < CONTENT_RANGE && !ids.contains(&id) {
        ids.push(id);
    }
    let crashed = Crashed::new(sides, call, id, &ids);
    if media.len() > 1 {
        crashed.count_marks(&media, tally);
    }
    let mut left = Vec::new();
    for (burn, pair) in media.windows(2).enumerate() {
        let at = next_burn(&pair[0], &pair[1])?;
        for (beam, word) in beams(random, pair[1][at]) {
            let mut medium = pair[0].clone();
            medium[at] = word;
            let sides = crashed.recovered(sides, medium, tally).map_err(|text| {
                format!("{call:?}, burn {burn}, word {at} left as {word}: {text}")
            })?;
            tally.crashes.count(beam);
            tally.crashes.count(crashed.place(burn));
            left.push(After { burn, beam, sides });
        }
    }
    Ok(left)
}
