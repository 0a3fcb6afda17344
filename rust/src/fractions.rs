//! Ids whose draws lie on a fraction or next to one, found by running the rounds backwards.

use crate::archive::{Table, BLANK, CONTENT_RANGE};
use crate::calls::Call;
use crate::differ::{run_blank, run_picks, Difference, Lent, Tally};
use crate::lists::Shape;
use crate::placement::{step, Fraction};
use crate::random::Random;
use crate::salts;

/// The number that has this draw on a server under a salt, where the draw is not 0.
fn id_drawing(draw: u32, salt: u32, server: usize) -> u32 {
    let seed = round_back(round_back(round_back(draw)));
    seed.wrapping_sub(step(server)).wrapping_sub(salt)
}

/// The same if it is in range, and the draw is not 0.
fn id_with_draw(draw: u32, salt: u32, server: usize) -> Option<u32> {
    let id = id_drawing(draw, salt, server);
    (draw != 0 && id < CONTENT_RANGE).then_some(id)
}

/// The number that one round turns into `s`.
fn round_back(s: u32) -> u32 {
    let left = |y: u32, shift: u32| (0..32 / shift).fold(y, |x, _| y ^ (x << shift));
    let right = |y: u32| y ^ (y >> 17);
    left(right(left(s, 5)), 13)
}

/// A draw d with n * 2^32 = d * denominator, where there is one.
fn draw_on(fraction: Fraction) -> Option<u32> {
    let scaled = u64::from(fraction.numerator) << 32;
    let denominator = u64::from(fraction.denominator);
    let whole = scaled.is_multiple_of(denominator) && fraction.numerator < fraction.denominator;
    whole.then(|| (scaled / denominator) as u32)
}

/// Servers whose highest has WriteP on a multiple of a power of two, and ids that draw it exactly,
/// one less and one more.
pub fn on_fraction(random: &mut Random, tally: &mut Tally) -> Result<(), Difference> {
    let server = random.between(1, 7);
    let power = random.between(1, 6);
    let factor = random.between(1, 3);
    let weight = random.between(1, (1 << power) - 1) * factor;
    let fraction = Fraction::new(weight, factor << power);
    let weights = weights_with(random, server, fraction);
    let draw = draw_on(fraction).expect("a power of two");
    let salt = salts::salt(random);
    let ids: Vec<u32> = [draw - 1, draw, draw, draw + 1]
        .into_iter()
        .filter_map(|draw| id_with_draw(draw, salt, server as usize))
        .collect();
    if ids.is_empty() {
        return Ok(());
    }
    let shape = Shape {
        capacity: *weights.iter().max().expect("not empty"),
        salt,
        servers: server + 1,
        ids,
    };
    let medium_len = (3 * shape.capacity * shape.servers) as usize;
    let mut list: Vec<Call> = weights
        .iter()
        .map(|&weight| Call::AddServer { weight })
        .collect();
    for &id in &shape.ids {
        list.push(Call::write(id, 1));
        list.push(Call::lookup(id));
    }
    list.extend((0..20).map(|_| shape.call(random)));
    run_blank(shape.start(), medium_len, &list, tally)?;
    run_picks(&weights, salt, &shape.ids, shape.ids.len(), tally)?;
    picks_of_many(random, tally)
}

/// Picks of many ids, which are compared in blocks of servers: the server with such a WriteP among any
/// number of others, those above it mostly of weight 0, and ids with a seed of 0 among the ids.
fn picks_of_many(random: &mut Random, tally: &mut Tally) -> Result<(), Difference> {
    let server = random.between(1, 40);
    let power = random.between(1, 12);
    let weight = random.between(1, (1 << power) - 1);
    let fraction = Fraction::new(weight, 1 << power);
    let mut weights = weights_with(random, server, fraction);
    weights.extend((0..random.below(20)).map(|_| random.below(50) / 48));
    let draw = draw_on(fraction).expect("a power of two");
    let salt = salts::salt(random);
    let ids: Vec<u32> = (0..random.between(14, 40))
        .map(|_| match random.below(4) {
            0 => random.word(),
            1 => step(random.below(weights.len() as u32) as usize)
                .wrapping_add(salt)
                .wrapping_neg(),
            _ => id_drawing(draw - 1 + random.below(3), salt, server as usize),
        })
        .collect();
    run_picks(&weights, salt, &ids, ids.len(), tally)
}

/// Weights whose last makes this WriteP.
fn weights_with(random: &mut Random, server: u32, fraction: Fraction) -> Vec<u32> {
    let mut rest = fraction.denominator - fraction.numerator;
    let mut weights = Vec::new();
    for _ in 1..server {
        let weight = random.below(rest + 1);
        rest -= weight;
        weights.push(weight);
    }
    weights.push(rest);
    weights.push(fraction.numerator);
    weights
}

/// A ReadP whose denominator is near 2^24 and an id whose draw misses it by the least that whole
/// numbers can, 1 / (denominator * 2^32), above or below: 64-bit floats call the two equal.
pub fn near_fraction(random: &mut Random, tally: &mut Tally) -> Result<(), Difference> {
    let denominator = random.between(1 << 23, (1 << 24) - 1) | 1;
    let above = inverse_of_modulus(denominator);
    let (numerator, draw) = if random.one_in(2) {
        (
            above,
            ((u64::from(above) << 32) - 1) / u64::from(denominator),
        )
    } else {
        let below = denominator - above;
        (
            below,
            ((u64::from(below) << 32) + 1) / u64::from(denominator),
        )
    };
    let server = random.between(1, 7) as usize;
    let salt = salts::salt(random);
    let Some(id) = id_with_draw(draw as u32, salt, server) else {
        return Ok(());
    };
    let table = with_read_p(salt, server, Fraction::new(numerator, denominator));
    let mut lent = Lent::counted(random, &table, vec![BLANK; 3 * (server + 1)]);
    let list = [
        Call::lookup(id),
        Call::write(id, 1),
        Call::lookup(id),
        Call::delete(id),
    ];
    lent.run(&list, tally)
}

/// The number whose product with 2^32 is 1 modulo an odd denominator: 1 halved 32 times.
fn inverse_of_modulus(denominator: u32) -> u32 {
    let half = |x: u32| match x.is_multiple_of(2) {
        true => x / 2,
        false => (x + denominator) / 2,
    };
    (0..32).fold(1, |x, _| half(x))
}

/// A table of capacity 1 whose highest server has weight 0 and this ReadP.
fn with_read_p(salt: u32, server: usize, read_p: Fraction) -> Table {
    let mut table = Table::start(1, salt).expect("in range");
    let medium = vec![BLANK; 3 * (server + 1)];
    for _ in 0..=server {
        table.add_server(&medium, 0).expect("blank");
    }
    table.read_numerators[server] = read_p.numerator;
    table.read_denominators[server] = read_p.denominator;
    table
}
