//! Every short list of calls on two or three servers of capacity 1.

use crate::archive::{tenant_of, CONTENT_RANGE, TENANTS};
use crate::calls::Call;
use crate::differ::{run_blank, Difference, Tally};
use crate::lists::moved;
use crate::placement::SALT_RANGE;
use crate::random::Random;

/// Every list of `depth` calls over a small alphabet, on a medium for so many servers of capacity
/// 1: from nothing, and after every choice of weights 0 and 1 for all servers. The two ids differ in
/// their tenant alone; the salt is any.
pub fn run(
    random: &mut Random,
    servers: u32,
    depth: u32,
    tally: &mut Tally,
) -> Result<(), Difference> {
    let id = random.below(CONTENT_RANGE);
    let other = (tenant_of(id) + random.between(1, TENANTS - 1)) % TENANTS;
    let ids = [id, moved(id, other)];
    let salt = random.below(SALT_RANGE);
    let calls = alphabet(servers, &ids);
    let medium_len = 3 * servers as usize;
    let mut compare = |list: &[Call]| run_blank([1, salt], medium_len, list, tally);
    for choice in 0..1 << servers {
        let added: Vec<Call> = (0..servers).map(|k| added(choice >> k & 1)).collect();
        every_list(&added, &calls, depth, &mut compare)?;
    }
    let calls_and_servers = [calls, vec![added(0), added(1)]].concat();
    every_list(&[], &calls_and_servers, depth, &mut compare)
}

fn added(weight: u32) -> Call {
    Call::AddServer { weight }
}

/// Calls on servers that are there: each weight, what can be done with each id, and a write of the
/// first id by the second one's tenant.
fn alphabet(servers: u32, ids: &[u32; 2]) -> Vec<Call> {
    let mut calls = Vec::new();
    for server in 0..servers {
        for weight in 0..2 {
            calls.push(Call::Reweight { server, weight });
        }
    }
    for (&id, value) in ids.iter().zip(1..) {
        calls.push(Call::write(id, value));
        calls.push(Call::delete(id));
        calls.push(Call::lookup(id));
    }
    let [id, other] = *ids;
    calls.push(Call::Write {
        tenant: tenant_of(other),
        id,
        value: 3,
    });
    calls
}

/// Hands on every list that begins with `first` and has `depth` calls of the alphabet more.
fn every_list(
    first: &[Call],
    alphabet: &[Call],
    depth: u32,
    run: &mut impl FnMut(&[Call]) -> Result<(), Difference>,
) -> Result<(), Difference> {
    let mut list = first.to_vec();
    for mut number in 0..alphabet.len().pow(depth) {
        list.truncate(first.len());
        for _ in 0..depth {
            list.push(alphabet[number % alphabet.len()]);
            number /= alphabet.len();
        }
        run(&list)?;
    }
    Ok(())
}
