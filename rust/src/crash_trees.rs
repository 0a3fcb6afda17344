//! Every short list of writes and deletes of one id on two or three servers, with every crash of every
//! call of it, and every crash of what follows a crash.

use crate::archive::{CONTENT_RANGE, TENANTS};
use crate::calls::Call;
use crate::crash::{crash_everywhere, After, Sides};
use crate::crash_cases::Case;
use crate::differ::{Difference, Tally};
use crate::lists::{moved, Shape};
use crate::placement::SALT_RANGE;
use crate::random::Random;

/// A write or a delete, after the writes were sent to a server, the only one that has a weight.
struct Step {
    server: u32,
    call: Call,
}

/// Every list of `depth` steps on so many servers, each of which has room for all.
pub fn run(
    random: &mut Random,
    servers: u32,
    depth: u32,
    tally: &mut Tally,
) -> Result<(), Difference> {
    let id = random.below(CONTENT_RANGE);
    let other = moved(id, (id / (1 << 27) + 1) % TENANTS);
    let shape = Shape {
        capacity: depth + 1,
        salt: random.below(SALT_RANGE),
        servers,
        ids: vec![id, other],
    };
    let medium_len = (3 * shape.capacity * servers) as usize;
    let mut sides = Sides::new(&shape, medium_len);
    for _ in 0..servers {
        sides.run(Call::AddServer { weight: 0 })?;
    }
    sides.run(Call::write(other, random.below(CONTENT_RANGE)))?;
    go_on(random, &sides, &shape, depth, tally)
        .map_err(|text| format!("a list of {depth} steps on {servers} servers: {text}"))
}

/// A write to each server, and a delete.
fn steps(random: &mut Random, shape: &Shape) -> Vec<Step> {
    let id = shape.ids[0];
    let write = |server| Step {
        server,
        call: Call::write(id, random.below(CONTENT_RANGE)),
    };
    let mut steps: Vec<Step> = (0..shape.servers).map(write).collect();
    steps.push(Step {
        server: 0,
        call: Call::delete(id),
    });
    steps
}

/// Crashes every step that may come next everywhere, and goes on from each of these crashes and from the
/// call that was not crashed.
fn go_on(
    random: &mut Random,
    sides: &Sides,
    shape: &Shape,
    depth: u32,
    tally: &mut Tally,
) -> Result<(), Difference> {
    if depth == 0 {
        return Ok(());
    }
    for step in steps(random, shape) {
        let mut sides = sides.clone();
        for server in 0..shape.servers {
            let weight = u32::from(server == step.server);
            sides.run(Call::Reweight { server, weight })?;
        }
        let crashes = crash_everywhere(random, &sides, step.call, &shape.ids, tally)?;
        for after in crashes.iter().filter(|after| is_new(after)) {
            tally.crashes.count(Case::GoneOn);
            go_on(random, &after.sides, shape, depth - 1, tally)?;
        }
        sides.run(step.call)?;
        go_on(random, &sides, shape, depth - 1, tally)?;
    }
    Ok(())
}

/// One kind of junk stands for the others, and a dark word for what the burn before it left.
fn is_new(after: &After) -> bool {
    match after.beam {
        Case::Dark => after.burn == 0,
        Case::Right | Case::OtherJunk => true,
        _ => false,
    }
}
