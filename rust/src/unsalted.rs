//! Numbers that are no salt: no start takes one, no table that has one is sound, and nothing is
//! picked under one.

use crate::archive::BLANK;
use crate::calls::{Call, SALT, TABLE_WORDS};
use crate::differ::{run_blank, run_picks, Difference, Lent, Tally};
use crate::interface::start;
use crate::lists::Shape;
use crate::placement::MAX_CAPACITY;
use crate::random::Random;
use crate::rows::all_refused;
use crate::salts::no_salt;

/// A start, a list from a start, and picks with what is no salt; and a table that gets one between
/// its calls, and then its own again.
pub fn out_of_range(random: &mut Random, tally: &mut Tally) -> Result<(), Difference> {
    let shape = Shape::random(random, 8, 6);
    let salt = no_salt(random);
    start(shape.capacity, salt, TABLE_WORDS)?;
    let list = shape.list(random, 20);
    let medium_len = shape.medium_len(random);
    run_blank([shape.capacity, salt], medium_len, &list, tally)?;
    let weights: Vec<u32> = (0..shape.servers).map(|_| weight(random)).collect();
    run_picks(&weights, salt, &shape.ids, shape.ids.len(), tally)?;

    let mut lent = Lent::counted(random, &shape.table(), vec![BLANK; medium_len]);
    lent.run(&list, tally)?;
    lent.table[SALT] = salt;
    let length = random.between(60, 140);
    let calls: Vec<Call> = (0..length).map(|_| shape.call(random)).collect();
    all_refused(&mut lent, &calls, tally)?;
    lent.run(&calls, tally)?;
    lent.table[SALT] = shape.salt;
    lent.run(&shape.list(random, 8), tally)
}

fn weight(random: &mut Random) -> u32 {
    random.below(MAX_CAPACITY + 1)
}
