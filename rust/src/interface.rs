//! The exported functions one call at a time: the same as in a list, and nothing done where a run
//! is too short.

use crate::archive::{Table, BLANK};
use crate::batch::SHORT;
use crate::calls::{encode, Call, Reply, Resume, CALL_WORDS, REPLY_WORDS, TABLE_WORDS};
use crate::differ::{compare_words, Difference, Lent, Tally, UNREAD, UNSTORED};
use crate::lists::Shape;
use crate::random::Random;
use crate::salts;
use crate::suites::{any_table, damage, EDGES};
use ticket_archive::{functions as proved, Archive, Refusal};

fn each_call(
    calls: &[u32],
    replies: &mut [u32],
    mut run: impl FnMut(&[u32; CALL_WORDS]) -> [u32; REPLY_WORDS],
) -> usize {
    let calls = calls.as_chunks().0;
    let replies = replies.as_chunks_mut().0;
    for (call, reply) in calls.iter().zip(replies.iter_mut()) {
        *reply = run(call);
    }
    calls.len().min(replies.len())
}

/// A list by `archive_call`, each call with a word more than it needs.
fn by_functions(
    table: &mut [u32],
    calls: &[u32],
    medium: &mut [u32],
    replies: &mut [u32],
) -> usize {
    each_call(calls, replies, |call| {
        let mut longer = call.to_vec();
        longer.push(UNREAD);
        let mut reply = [UNSTORED; REPLY_WORDS + 1];
        let number = proved::call(table, medium, &longer, &mut reply);
        assert_eq!(number, reply[0], "the number of {call:?}");
        assert_eq!(reply[REPLY_WORDS], UNSTORED, "the word after {call:?}");
        *reply.first_chunk().expect("a reply")
    })
}

fn with_archive(
    table: &mut [u32],
    medium: &mut [u32],
    run: impl FnOnce(&mut Archive) -> usize,
) -> usize {
    let words = table.first_chunk_mut().expect("a whole table");
    let mut archive = Archive::from_words(*words, medium);
    let ran = run(&mut archive);
    *words = *archive.table();
    ran
}

/// A list by the safe archive's `call`.
fn by_calls(table: &mut [u32], calls: &[u32], medium: &mut [u32], replies: &mut [u32]) -> usize {
    with_archive(table, medium, |archive| {
        each_call(calls, replies, |call| archive.call(call))
    })
}

/// A list by the safe archive's methods, whose results are turned into words again.
fn by_methods(table: &mut [u32], calls: &[u32], medium: &mut [u32], replies: &mut [u32]) -> usize {
    with_archive(table, medium, |archive| {
        each_call(calls, replies, |call| by_method(archive, call))
    })
}

fn by_method(archive: &mut Archive, words: &[u32; CALL_WORDS]) -> [u32; REPLY_WORDS] {
    let on_server = |server| Reply {
        server,
        ..Reply::default()
    };
    let result: Result<Reply, Refusal> = match Call::from_words(*words) {
        Call::AddServer { weight } => archive.add_server(weight).map(on_server),
        Call::Reweight { server, weight } => {
            archive.reweight(server, weight).map(|()| on_server(server))
        }
        Call::Write { tenant, id, value } => {
            archive.write(tenant, id, value).map(|written| Reply {
                invalidated: written.invalidated,
                ..on_server(written.server)
            })
        }
        Call::Delete { tenant, id } => archive.delete(tenant, id).map(|invalidated| Reply {
            invalidated,
            ..Reply::default()
        }),
        Call::Lookup { tenant, id } => {
            return Reply::from_typed(archive.lookup(tenant, id)).words()
        }
        Call::None { .. } => return archive.call(words),
    };
    let reply = result.unwrap_or_else(|refusal| Reply {
        refusal: refusal as u32,
        ..Reply::default()
    });
    reply.words()
}

/// Each way to run the calls of a list one at a time.
const WAYS: [(&str, Resume); 3] = [
    ("functions::call", by_functions),
    ("Archive::call", by_calls),
    ("the methods of Archive", by_methods),
];

/// Lists on fresh and other tables, on blank and damaged words: each call alone, in every way.
pub fn one_by_one(random: &mut Random, tally: &mut Tally) -> Result<(), Difference> {
    let mut shape = Shape::random(random, 8, 6);
    let mut list = Vec::new();
    if random.one_in(40) {
        shape.servers = random.between(250, 257);
        list = vec![Call::AddServer { weight: 1 }; shape.servers as usize];
    }
    let table = shape.table();
    let medium = vec![BLANK; shape.medium_len(random)];
    let mut lent = Lent::counted(random, &table, medium);
    match random.below(8) {
        0 | 1 => damage(random, &shape, &mut lent.medium),
        2 | 3 => lent.table = any_table(random, &shape),
        4 => lent.table.push(random.word()),
        _ => {}
    }
    let length = random.between(1, 100) as usize;
    list.extend(shape.list(random, length));
    for (name, run) in WAYS {
        lent.run_by(run, &list, tally)
            .map_err(|text| format!("{name} in the place of Rust: {text}"))?;
    }
    Ok(())
}

/// `archive_start` against the Rust implementation: the number and every word.
pub fn start(capacity: u32, salt: u32, length: usize) -> Result<(), Difference> {
    let mut table = vec![UNSTORED; length];
    let number = proved::start(capacity, salt, &mut table);
    let mut expected = vec![UNSTORED; length];
    let told = match expected.first_chunk_mut() {
        None => SHORT,
        Some(words) => match Table::start(capacity, salt) {
            Ok(table) => {
                table.store(words);
                0
            }
            Err(refusal) => {
                Table::ZERO.store(words);
                refusal as u32
            }
        },
    };
    compare_words("start", &[number], &[told])
        .and_then(|()| compare_words("started table", &table, &expected))
        .map_err(|text| format!("capacity {capacity}, salt {salt}, {length} words: {text}"))
}

/// The run without its last word, or now and then without more.
fn cut(random: &mut Random, run: &mut Vec<u32>) {
    let kept = match random.below(3) {
        0 => random.below(run.len() as u32) as usize,
        _ => run.len() - 1,
    };
    run.truncate(kept);
}

/// Table, medium, call and reply, of which one is too short for a call.
fn short_call(random: &mut Random, lent: &Lent, call: Call) -> Result<(), Difference> {
    for short in [0, 2, 3] {
        let mut runs = [
            lent.table.clone(),
            lent.medium.clone(),
            call.words(UNREAD).to_vec(),
            vec![UNSTORED; REPLY_WORDS],
        ];
        cut(random, &mut runs[short]);
        let before = runs.clone();
        let [table, medium, words, reply] = &mut runs;
        let number = proved::call(table, medium, words, reply);
        if number != SHORT || runs != before {
            let lengths = before.map(|run| run.len());
            return Err(format!("{call:?} on runs of {lengths:?}: {number}"));
        }
    }
    Ok(())
}

/// A list on a table of too few words: nothing is run.
fn short_resume(random: &mut Random, lent: &Lent, list: &[Call]) -> Result<(), Difference> {
    let calls = encode(list, UNREAD);
    let mut runs = [
        lent.table.clone(),
        lent.medium.clone(),
        vec![UNSTORED; REPLY_WORDS * list.len()],
    ];
    cut(random, &mut runs[0]);
    let before = runs.clone();
    let [table, medium, replies] = &mut runs;
    let ran = proved::resume(table, &calls, medium, replies);
    if ran != 0 || runs != before {
        let words = before[0].len();
        return Err(format!("{list:?} on a table of {words} words: {ran}"));
    }
    Ok(())
}

/// Each run of each function in turn too short; what a batch does then is among the batches.
pub fn short_runs(random: &mut Random, tally: &mut Tally) -> Result<(), Difference> {
    let shape = Shape::random(random, 8, 6);
    let table = shape.table();
    let medium = vec![BLANK; shape.medium_len(random)];
    let mut lent = Lent::counted(random, &table, medium);
    lent.run(&shape.list(random, 20), tally)?;
    let list = shape.list(random, 4);
    for &call in &list {
        short_call(random, &lent, call)?;
    }
    short_resume(random, &lent, &list)?;
    let capacity = match random.below(2) {
        0 => random.pick(&EDGES),
        _ => shape.capacity,
    };
    let salt = salts::any(random);
    for length in [0, TABLE_WORDS - 1, TABLE_WORDS, TABLE_WORDS + 3] {
        start(capacity, salt, length)?;
    }
    tally.short_runs += 3 * list.len() as u64 + 3;
    tally.starts += 2;
    Ok(())
}
