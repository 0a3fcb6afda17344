//! Bodies with a number of burns, and recover, on words that no list of calls left: other tables,
//! damaged and short media, arguments that are refused, other calls, too short runs.

use crate::archive::{Table, BLANK, CONTENT_RANGE};
use crate::batch::SHORT;
use crate::calls::{Call, Reply, CALL_WORDS, REPLY_WORDS, TABLE_WORDS};
use crate::crash_cases::Case;
use crate::differ::{compare_words, Difference, Lent, Tally, UNREAD, UNSTORED};
use crate::lists::Shape;
use crate::random::Random;
use crate::suites::{alter, any_table, damage, raise_used};
use ticket_archive::{functions as proved, Archive};

/// Tables and media of all kinds, with a body and a recover on each.
pub fn other_words(random: &mut Random, tally: &mut Tally) -> Result<(), Difference> {
    let shape = Shape::random(random, 6, 6);
    let medium = vec![BLANK; shape.medium_len(random)];
    let table = shape.table();
    let mut lent = Lent::counted(random, &table, medium);
    lent.run(&shape.list(random, 30), tally)?;
    for _ in 0..8 {
        let mut other = Lent {
            table: lent.table.clone(),
            medium: lent.medium.clone(),
        };
        spoil(random, &shape, &mut other);
        let call = some_call(random, &shape);
        let burns = number_of_burns(random);
        body(&other, call, burns, tally)
            .and_then(|()| recover(&other, tally))
            .and_then(|()| short(random, &other, call, burns, tally))
            .map_err(|text| {
                let Lent { table, medium } = &other;
                format!("{text}\n{call:?} with {burns} burns on the table {table:?}\nand the medium {medium:?}\n")
            })?;
    }
    Ok(())
}

/// Any call, or as often a write or a delete that may be accepted.
fn some_call(random: &mut Random, shape: &Shape) -> Call {
    match random.below(4) {
        0 => Call::delete(random.pick(&shape.ids)),
        1 => Call::write(random.pick(&shape.ids), random.below(CONTENT_RANGE)),
        _ => shape.call(random),
    }
}

/// One or more of a table that calls did not leave, a damaged medium, a shorter one, a longer table.
fn spoil(random: &mut Random, shape: &Shape, lent: &mut Lent) {
    match random.below(8) {
        0 => lent.table = any_table(random, shape),
        1 => alter(random, shape, &mut lent.table),
        2 => raise_used(random, &mut lent.table),
        _ => {}
    }
    if random.one_in(2) {
        damage(random, shape, &mut lent.medium);
    }
    if random.one_in(8) {
        let kept = random.below(lent.medium.len() as u32) as usize;
        lent.medium.truncate(kept);
    }
    if random.one_in(4) {
        lent.table.push(UNREAD);
    }
}

fn number_of_burns(random: &mut Random) -> u32 {
    match random.below(8) {
        0 => u32::MAX,
        1 => random.word(),
        _ => random.below(6),
    }
}

/// `archive_call_some` and the safe archive against the Rust implementation, and where the call is
/// refused against the plain call.
fn body(lent: &Lent, call: Call, burns: u32, tally: &mut Tally) -> Result<(), Difference> {
    let words = call.body_words(burns, UNREAD);
    let mut left = lent.table.clone();
    let mut medium = lent.medium.clone();
    let mut reply = [UNSTORED; REPLY_WORDS + 1];
    let number = proved::call_some(&mut left, &mut medium, &words, &mut reply);
    compare_words("number", &[number], &reply[..1])?;
    compare_words("word after the reply", &reply[REPLY_WORDS..], &[UNSTORED])?;
    let reply = &reply[..REPLY_WORDS];

    let mut table = Table::from_words(lent.table.first_chunk().expect("a table"));
    let mut rust_medium = lent.medium.clone();
    let expected = table.run_some(&mut rust_medium, call, burns);
    let mut rust_table = lent.table.clone();
    table.store(rust_table.first_chunk_mut().expect("a table"));
    compare_words("reply", reply, &expected.words())?;
    compare_words("table", &left, &rust_table)?;
    compare_words("medium", &medium, &rust_medium)?;
    by_method(lent, call, burns, reply, &left, &medium)?;

    let is_body = matches!(call, Call::Write { .. } | Call::Delete { .. });
    if is_body && number != 0 {
        let mut plain = [UNSTORED; REPLY_WORDS];
        proved::call(&mut left, &mut medium, &words, &mut plain);
        compare_words("reply, the plain call in the place of Rust", &plain, reply)?;
    }
    tally.crashes.count(match (is_body, number) {
        (false, _) => Case::OtherCall,
        (true, 0) => Case::OtherBody,
        (true, _) => Case::OtherBodyRefused,
    });
    Ok(())
}

/// The same by the methods of the safe archive.
fn by_method(
    lent: &Lent,
    call: Call,
    burns: u32,
    reply: &[u32],
    table: &[u32],
    words: &[u32],
) -> Result<(), Difference> {
    let mut medium = lent.medium.clone();
    let lent_table = *lent.table.first_chunk().expect("a table");
    let mut archive = Archive::from_words(lent_table, &mut medium);
    let told = match call {
        Call::Write { tenant, id, value } => {
            let written = archive.write_some(tenant, id, value, burns);
            written.map(|written| (written.server, written.invalidated))
        }
        Call::Delete { tenant, id } => archive
            .delete_some(tenant, id, burns)
            .map(|invalidated| (0, invalidated)),
        _ => return Ok(()),
    };
    let told = match told {
        Ok((server, invalidated)) => Reply {
            server,
            invalidated,
            ..Reply::default()
        },
        Err(refusal) => Reply {
            refusal: refusal as u32,
            ..Reply::default()
        },
    };
    compare_words("reply by a method", &told.words(), reply)?;
    compare_words("table by a method", archive.table(), table)?;
    compare_words("medium by a method", archive.medium(), words)
}

/// `archive_recover` and the safe archive against the Rust implementation.
fn recover(lent: &Lent, tally: &mut Tally) -> Result<(), Difference> {
    let mut left = lent.table.clone();
    let number = proved::recover(&mut left, &lent.medium);
    let mut table = Table::from_words(lent.table.first_chunk().expect("a table"));
    let is_sound = table.is_sound();
    let told = table.recover(&lent.medium);
    let expected = told.map_or_else(|refusal| refusal as u32, |()| 0);
    let mut rust = lent.table.clone();
    table.store(rust.first_chunk_mut().expect("a table"));
    compare_words("number of recover", &[number], &[expected])?;
    compare_words("recovered table", &left, &rust)?;

    let mut medium = lent.medium.clone();
    let lent_table = *lent.table.first_chunk().expect("a table");
    let mut archive = Archive::from_words(lent_table, &mut medium);
    let told = archive.recover();
    let expected = told.map_or_else(|refusal| refusal as u32, |()| 0);
    compare_words("number of recover by a method", &[expected], &[number])?;
    compare_words("table recovered by a method", archive.table(), &left)?;
    compare_words("medium after recover", archive.medium(), &lent.medium)?;

    tally.crashes.count(Case::OtherRecover);
    match number {
        0 if left != lent.table => tally.crashes.count(Case::RecoverChanges),
        1 => tally.crashes.count(Case::RecoverUnsound),
        5 => tally.crashes.count(Case::RecoverShort),
        _ => {}
    }
    let needed = 3 * u64::from(table.capacity) * u64::from(table.count);
    if !is_sound && (lent.medium.len() as u64) < needed {
        tally.crashes.count(Case::UnsoundAndShort);
    }
    Ok(())
}

/// Each run in turn too short: nothing is done.
fn short(
    random: &mut Random,
    lent: &Lent,
    call: Call,
    burns: u32,
    tally: &mut Tally,
) -> Result<(), Difference> {
    let kept = |random: &mut Random, needed: usize| match random.below(3) {
        0 => random.below(needed as u32) as usize,
        _ => needed - 1,
    };
    for short in [0, 2, 3] {
        let mut runs = [
            lent.table.clone(),
            lent.medium.clone(),
            call.body_words(burns, UNREAD).to_vec(),
            vec![UNSTORED; REPLY_WORDS],
        ];
        let needed = [TABLE_WORDS, 0, CALL_WORDS, REPLY_WORDS][short];
        runs[short].truncate(kept(random, needed));
        let before = runs.clone();
        let [table, medium, words, reply] = &mut runs;
        let number = proved::call_some(table, medium, words, reply);
        if number != SHORT || runs != before {
            let lengths = before.map(|run| run.len());
            return Err(format!("a body on runs of {lengths:?}: {number}"));
        }
    }
    let mut table = lent.table.clone();
    table.truncate(kept(random, TABLE_WORDS));
    let before = table.clone();
    let number = proved::recover(&mut table, &lent.medium);
    if number != SHORT || table != before {
        let length = before.len();
        return Err(format!("recover on a table of {length} words: {number}"));
    }
    tally.crashes.count(Case::TooShort);
    tally.crashes.rounds += 1;
    Ok(())
}
