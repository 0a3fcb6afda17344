//! Lists of calls, each write and each delete of which is crashed everywhere (crash.rs). From one of
//! these crashes the list may go on, so that crashes follow one another.

use crate::archive::CONTENT_RANGE;
use crate::calls::Call;
use crate::crash::{crash_everywhere, Sides};
use crate::crash_cases::Case;
use crate::crash_edges::other_words;
use crate::differ::{compare_words, Difference, Tally};
use crate::lists::Shape;
use crate::random::Random;
use crate::suites::Suite;

/// Each suite with the crashes, or the rounds, that it runs for a hundred crashes asked for.
pub const SUITES: [(&str, Suite, u64, fn(&Tally) -> u64); 2] = [
    ("crashes at every burn", lists, 100, |t| t.crashes.run),
    ("bodies and recover on other words", other_words, 2, |t| {
        t.crashes.rounds
    }),
];

/// Recover where no call crashed changes nothing.
fn recover_again(sides: &Sides, tally: &mut Tally) -> Result<(), Difference> {
    let mut again = sides.clone();
    again.recover()?;
    tally.crashes.count(Case::Recovered);
    compare_words(
        "recovered table, that of before in the place of Rust",
        &again.table,
        &sides.table,
    )
}

/// The calls of a list: few ids, so that they are written again and again.
fn some_call(random: &mut Random, shape: &Shape) -> Call {
    match random.below(10) {
        0 => Call::AddServer {
            weight: shape.weight(random),
        },
        1 => Call::Reweight {
            server: random.below(shape.servers),
            weight: shape.weight(random),
        },
        2..=4 => Call::write(random.pick(&shape.ids), random.below(CONTENT_RANGE)),
        5 => Call::delete(random.pick(&shape.ids)),
        _ => shape.call(random),
    }
}

fn add_servers(random: &mut Random, shape: &Shape, first: u32) -> Vec<Call> {
    let mut list = Vec::new();
    for _ in 0..first {
        list.push(Call::AddServer {
            weight: shape.weight(random),
        });
    }
    list
}

fn any_list(random: &mut Random, shape: &mut Shape) -> Vec<Call> {
    shape.ids.truncate(random.between(1, 4) as usize);
    let first = random.below(shape.servers + 1);
    let mut list = add_servers(random, shape, first);
    for _ in 0..random.between(4, 40) {
        list.push(some_call(random, shape));
    }
    list
}

/// A list whose writes go to one server after another, up and down, the only one that has a weight: so
/// an id has live entries on several.
fn moving_list(random: &mut Random, shape: &mut Shape) -> Vec<Call> {
    shape.ids.truncate(random.between(1, 3) as usize);
    let mut list = vec![Call::AddServer { weight: 0 }; shape.servers as usize];
    let mut at = 0;
    for _ in 0..random.between(3, 10) {
        list.push(Call::Reweight {
            server: at,
            weight: 0,
        });
        at = random.below(shape.servers);
        list.push(Call::Reweight {
            server: at,
            weight: 1,
        });
        for _ in 0..random.between(1, 2) {
            list.push(Call::write(
                random.pick(&shape.ids),
                random.below(CONTENT_RANGE),
            ));
        }
        match random.below(8) {
            0 | 1 => list.push(Call::delete(random.pick(&shape.ids))),
            2 => list.push(some_call(random, shape)),
            _ => {}
        }
    }
    list
}

/// A list, each write and delete of which is crashed everywhere.
fn lists(random: &mut Random, tally: &mut Tally) -> Result<(), Difference> {
    let mut shape = Shape::random(random, 8, 6);
    let list = match random.one_in(2) {
        true => moving_list(random, &mut shape),
        false => any_list(random, &mut shape),
    };
    let Shape { capacity, salt, .. } = shape;
    let medium_len = shape.medium_len(random);
    let mut sides = Sides::new(&shape, medium_len);
    for (at, &call) in list.iter().enumerate() {
        step(random, &mut sides, call, &shape.ids, tally).map_err(|text| {
            let table = sides.rust.described();
            let calls = &list[..=at];
            let start = format!("capacity {capacity}, salt {salt}, {medium_len} words of medium");
            format!("{text}\n{start}\ncalls, some of them crashed: {calls:#?}\n{table}\n")
        })?;
    }
    Ok(())
}

/// One call of a list: crashed everywhere, and then made, or gone on from one of the crashes.
fn step(
    random: &mut Random,
    sides: &mut Sides,
    call: Call,
    ids: &[u32],
    tally: &mut Tally,
) -> Result<(), Difference> {
    recover_again(sides, tally)?;
    let mut left = crash_everywhere(random, sides, call, ids, tally)?;
    if left.is_empty() || !random.one_in(3) {
        sides.run(call)?;
        return Ok(());
    }
    tally.crashes.count(Case::GoneOn);
    let drawn = random.below(left.len() as u32) as usize;
    *sides = left.swap_remove(drawn).sides;
    Ok(())
}
