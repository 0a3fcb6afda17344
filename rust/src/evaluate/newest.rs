//! The newest value is read: source document 000's table III.

use std::time::Instant;

use super::report::{row, Report, Setting, Table};
use super::scale::whole;
use super::store::{Fractions, Store};
use crate::calls::Call;
use crate::placement::draw;
use crate::random::Random;

/// The entries of a server, and the weight of a volume of 1.0.
const CAPACITY: u32 = 65_536;
const UNIT: u32 = 5_000;

/// The servers at which the ids begin from 0 again, and the most.
const RESET: usize = 4;
const SERVERS: usize = 6;

/// The id of table III.
const PUBLISHED_ID: u32 = 1_234_567;

/// What was found of an archive whose ids were all written twice.
struct Outcome {
    /// The ids whose newer value was read.
    newest: u32,
    written: u32,
    /// The marked entries, and the servers opened for all lookups.
    marked: u32,
    opened: u32,
    /// WriteP and ReadP at the first and the second write of the shown id, and at the end.
    shown: Vec<Vec<Fractions>>,
    /// Where the two writes of the shown id went.
    servers: Vec<u32>,
}

/// Writes `data` ids at each number of servers, the same ids again from four servers on, and then
/// looks every id up.
fn written_twice(random: &mut Random, data: u32, shown: u32) -> Outcome {
    let mut store = Store::start(CAPACITY, SERVERS);
    let mut outcome = Outcome {
        newest: 0,
        written: 0,
        marked: 0,
        opened: 0,
        shown: Vec::new(),
        servers: Vec::new(),
    };
    for servers in 1..=SERVERS {
        store.add_server(0);
        let weights: Vec<u32> = (0..servers).map(|_| random.below(UNIT)).collect();
        store.reweight_all(&weights);
        let (turn, step) = if servers < RESET {
            (0, servers - 1)
        } else {
            (1, servers - RESET)
        };
        let ids = step as u32 * data..(step as u32 + 1) * data;
        let list: Vec<Call> = ids
            .clone()
            .map(|id| Call::write(id, 2 * id + turn))
            .collect();
        let replies = store.accepted(&list);
        if ids.contains(&shown) {
            outcome.shown.push(store.fractions());
            outcome
                .servers
                .push(replies[(shown - ids.start) as usize].server);
        }
        outcome.written += data;
        outcome.marked += replies.iter().map(|reply| reply.invalidated).sum::<u32>();
    }
    outcome.shown.push(store.fractions());
    let list: Vec<Call> = (0..3 * data).map(Call::lookup).collect();
    store.each(&list, |id, reply| {
        outcome.newest += u32::from(reply.refusal == 0 && reply.value == 2 * id as u32 + 1);
        outcome.opened += reply.opened;
    });
    outcome
}

/// The table of the shown id, in the form of the source's.
fn shown_table(outcome: &Outcome, id: u32, set_up: String) -> Table {
    let [first, second, last] = &outcome.shown[..] else {
        panic!("an id is written twice")
    };
    let two =
        |fraction: Option<f64>| fraction.map_or(String::new(), |fraction| format!("{fraction:.2}"));
    let rows = (0..SERVERS).map(|server| {
        let write = |fractions: &[Fractions], turn: usize| {
            let text = two(fractions.get(server).map(|fractions| fractions.write));
            match outcome.servers[turn] == server as u32 {
                true => format!("**{text}**"),
                false => text,
            }
        };
        let rand = f64::from(draw(0, id, server)) / 4_294_967_296.0;
        let read = last[server].read;
        let read = if read > rand {
            format!("**{read:.2}**")
        } else {
            format!("{read:.2}")
        };
        vec![
            server.to_string(),
            write(first, 0),
            write(second, 1),
            read,
            two(Some(last[server].write)),
            two(Some(rand)),
        ]
    });
    Table {
        name: "table-3-id",
        seeded: true,
        set_up,
        head: row([
            "Server",
            "first write: WriteP",
            "second write: WriteP",
            "read: ReadP",
            "read: WriteP",
            "RAND",
        ]),
        rows: rows.collect(),
    }
}

/// All archives together, published and measured.
fn table(all: &[Outcome], data: u32) -> Table {
    let sum = |part: fn(&Outcome) -> u32| all.iter().map(|one| u64::from(part(one))).sum::<u64>();
    let ids = u64::from(3 * data) * all.len() as u64;
    let newest = sum(|one| one.newest);
    let opened = sum(|one| one.opened) as f64 / ids as f64;
    let line = |name: &str, published: &str, measured: String| row([name, published, &measured]);
    Table {
        name: "table-3",
        seeded: true,
        set_up: format!(
            "one server at first and one more after each {} writes, up to six; every volume drawn anew from \
             0.0 up to 1.0 at each step; ids from 0, and from 0 again at four servers; then every id is \
             looked up. Scaled down {} times from 1,000,000 writes a step, for 65,536 entries of a server; \
             {} archives.",
            whole(u64::from(data)),
            1_000_000 / data,
            all.len()
        ),
        head: row(["", "published", "measured"]),
        rows: vec![
            line("writes", "6,000,000", whole(sum(|one| one.written))),
            line("ids looked up", "3,000,000", whole(ids)),
            line("found with their newest value", "all", whole(newest)),
            line("found with an older value, or not found", "none", whole(ids - newest)),
            line("older entries marked by writes", "not published", whole(sum(|one| one.marked))),
            line("servers opened a lookup", "not published", format!("{opened:.2}")),
        ],
    }
}

pub fn run(setting: Setting, report: &mut Report) {
    let began = Instant::now();
    let data = setting.either(10_000, 1_000) as u32;
    let shown = PUBLISHED_ID / (1_000_000 / data);
    let mut random = Random::new(setting.seed);
    let archives = 0..setting.either(10, 2);
    let all: Vec<Outcome> = archives
        .map(|_| written_twice(&mut random, data, shown))
        .collect();
    let is_newest = |one: &Outcome| one.newest == 3 * data;
    report.require(
        all.iter().all(is_newest),
        "every id answers its newest value",
    );
    report.table(setting, began, table(&all, data));
    let set_up = format!(
        "id {} of the first archive, which stands for the published {}; in bold the servers written to, and \
         those that a lookup may open.",
        whole(u64::from(shown)),
        whole(u64::from(PUBLISHED_ID))
    );
    report.table(setting, began, shown_table(&all[0], shown, set_up));
}
