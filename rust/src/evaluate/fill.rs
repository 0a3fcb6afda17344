//! At which fill of the archive the first server is full.

use std::time::Instant;

use super::chart::{Axis, Bars};
use super::ideal::{self, splitmix};
use super::ids::{in_sequence, scattered, within_tenant, Map};
use super::report::{Report, Setting, Table};
use super::scale::whole;
use super::store::Store;
use crate::calls::Call;
use crate::random::Random;
use ticket_archive::functions as proved;

/// The entries of a server, and of those where writes are made too.
const CAPACITY: u32 = 65_536;
const WRITTEN_CAPACITY: u32 = 8_192;

/// How many ids are lent in one list.
const CHUNK: u32 = 1 << 12;

/// Hands on the server of each number from `first` on until it answers false.
type Filing = fn(&[u32], u32, &mut dyn FnMut(usize) -> bool);

fn file(weights: &[u32], first: u32, map: Map, go_on: &mut dyn FnMut(usize) -> bool) {
    let mut servers = vec![0; CHUNK as usize];
    let mut begin = first;
    loop {
        let ids: Vec<u32> = (begin..begin + CHUNK).map(map).collect();
        let stored = proved::picks(weights, 0, &ids, &mut servers);
        assert_eq!(stored, ids.len(), "the weights are in range");
        if !servers.iter().all(|&server| go_on(server as usize)) {
            return;
        }
        begin += CHUNK;
    }
}

/// The kinds of ids, and the control.
const KINDS: [(&str, Filing); 4] = [
    ("in sequence", |weights, first, go_on| {
        file(weights, first, in_sequence, go_on)
    }),
    ("scattered", |weights, first, go_on| {
        file(weights, first, scattered, go_on)
    }),
    ("scattered within a tenant", |weights, first, go_on| {
        file(weights, first, within_tenant, go_on)
    }),
    ("control", |weights, first, go_on| {
        let sum = weights.iter().map(|&weight| u64::from(weight)).sum();
        let mut ids = first..;
        while go_on(ideal::write_server(
            weights,
            sum,
            splitmix,
            ids.next().expect("there are more ids"),
        )) {}
    }),
];

/// How many ids are written before a write meets a full server.
fn written(servers: usize, capacity: u32, first: u32, filing: Filing) -> u32 {
    let mut used = vec![0; servers];
    let mut written = 0;
    filing(&vec![capacity; servers], first, &mut |server| {
        if used[server] == capacity {
            return false;
        }
        used[server] += 1;
        written += 1;
        true
    });
    written
}

/// The same by writes to an archive, refused by 6 at last.
fn written_in_archive(servers: usize, first: u32, map: Map) -> u32 {
    let mut store = Store::with_servers(WRITTEN_CAPACITY, servers, servers, WRITTEN_CAPACITY);
    let mut written = 0;
    loop {
        let list: Vec<Call> = (0..CHUNK)
            .map(|number| Call::write(map(first + written + number), 0))
            .collect();
        let replies = store.run(&list);
        let accepted = replies
            .iter()
            .take_while(|reply| reply.refusal == 0)
            .count();
        if let Some(refused) = replies.get(accepted) {
            assert_eq!(refused.refusal, 6, "only a full server refuses");
            return written + accepted as u32;
        }
        written += CHUNK;
    }
}

/// The least, mean and greatest fill over some first ids, in percent of the archive.
fn fills(servers: usize, firsts: &[u32], written: impl Fn(usize, u32) -> u32) -> [f64; 3] {
    let all = f64::from(CAPACITY) * servers as f64;
    let fill = |&first: &u32| 100.0 * f64::from(written(servers, first)) / all;
    let fills: Vec<f64> = firsts.iter().map(fill).collect();
    let least = fills.iter().copied().fold(f64::MAX, f64::min);
    let greatest = fills.iter().copied().fold(0.0, f64::max);
    [
        least,
        fills.iter().sum::<f64>() / fills.len() as f64,
        greatest,
    ]
}

/// First ids, 0 among them. The numbers after each of them have the same tenant.
fn firsts(random: &mut Random, count: usize) -> Vec<u32> {
    let other = |_| random.below(8) << 27 | random.below(1 << 26);
    [0].into_iter().chain((1..count).map(other)).collect()
}

/// Writes to an archive have to meet the full server where the picks say.
fn check_writes(report: &mut Report) -> [u32; 2] {
    let maps: [Map; 2] = [in_sequence, scattered];
    [0, 1].map(|kind| {
        let in_archive = written_in_archive(6, 0, maps[kind]);
        let by_picks = written(6, WRITTEN_CAPACITY, 0, KINDS[kind].1);
        report.require(
            in_archive == by_picks,
            "a server is full where the picks say",
        );
        in_archive
    })
}

/// The same where every weight is set to the entries that are free at each tenth of the fill.
fn written_reweighted(servers: usize, first: u32) -> u32 {
    let all = CAPACITY * servers as u32;
    let mut used = vec![0; servers];
    let mut written = 0;
    for tenth in 1.. {
        let weights: Vec<u32> = used.iter().map(|used| CAPACITY - used).collect();
        let mut is_full = false;
        file(&weights, first + written, in_sequence, &mut |server| {
            is_full = used[server] == CAPACITY;
            if is_full || written >= (all / 10).saturating_mul(tenth) && tenth < 10 {
                return false;
            }
            used[server] += 1;
            written += 1;
            true
        });
        if is_full {
            break;
        }
    }
    written
}

/// The servers that a lookup opens in an archive that was filled to nine tenths with ids in sequence,
/// where every weight was set to the entries that are free at each tenth.
fn opened_reweighted(servers: usize, capacity: u32) -> f64 {
    let mut store = Store::with_servers(capacity, servers, servers, capacity);
    let mut free = vec![capacity; servers];
    let tenth = capacity * servers as u32 / 10;
    for begin in (0..9).map(|tenths| tenths * tenth) {
        let list: Vec<Call> = (begin..begin + tenth)
            .map(|id| Call::write(id, id))
            .collect();
        let replies = store.accepted(&list);
        replies
            .iter()
            .for_each(|reply| free[reply.server as usize] -= 1);
        store.reweight_all(&free);
    }
    let list: Vec<Call> = (0..9 * tenth).map(Call::lookup).collect();
    let mut opened = 0;
    store.each(&list, |id, reply| {
        assert_eq!((reply.refusal, reply.value), (0, id as u32));
        opened += u64::from(reply.opened);
    });
    opened as f64 / list.len() as f64
}

/// The servers of the archives, and the first ids of each.
type Sizes = [(usize, Vec<u32>); 3];

/// The fills of each kind on each size, in two threads.
fn measured(sizes: &Sizes) -> Vec<(&'static str, [[f64; 3]; 3])> {
    let of = |kind: usize| {
        let (name, filing) = KINDS[kind];
        let written = |servers, first| written(servers, CAPACITY, first, filing);
        let fills = sizes
            .each_ref()
            .map(|(servers, firsts)| fills(*servers, firsts, written));
        (name, fills)
    };
    let reweighted = || {
        let fills = sizes
            .each_ref()
            .map(|(servers, firsts)| fills(*servers, firsts, written_reweighted));
        (
            "in sequence, weights set to what is free at every tenth",
            fills,
        )
    };
    std::thread::scope(|scope| {
        let other = scope.spawn(|| [of(1), of(3)]);
        let [sequence, tenant, reweighted] = [of(0), of(2), reweighted()];
        let [scattered, control] = other.join().expect("the count ends");
        vec![sequence, scattered, tenant, control, reweighted]
    })
}

/// A fill, and its range where there is one.
fn shown([least, mean, greatest]: &[f64; 3]) -> String {
    match least == greatest {
        true => format!("{mean:.2} %"),
        false => format!("{mean:.2} % ({least:.2} to {greatest:.2})"),
    }
}

fn picture(sizes: &Sizes, measured: &[(&str, [[f64; 3]; 3])]) -> String {
    let unused = |(name, fills): &(&str, [[f64; 3]; 3])| {
        let unused = fills.iter().map(|fill| Some(100.0 - fill[1])).collect();
        (
            name.replace(
                ", weights set to what is free at every tenth",
                ", reweighted",
            ),
            unused,
        )
    };
    Bars {
        title: "Entries left unused when the first server is full".into(),
        x_name: "servers of 65,536 entries",
        y: Axis::linear("entries left unused, % of all", [0.0, 5.0]),
        groups: sizes
            .iter()
            .map(|(servers, _)| servers.to_string())
            .collect(),
        series: measured.iter().map(unused).collect(),
        shown: |unused| format!("{unused:.1}"),
    }
    .drawn()
}

/// What was done, and where writes to an archive met a full server.
fn set_up(first_ids: usize, [sequence, scattered]: [u32; 2]) -> String {
    let all = 6 * WRITTEN_CAPACITY;
    let part = |written: u32| {
        let part = 100.0 * f64::from(written) / f64::from(all);
        format!("{} ({part:.2} %)", whole(u64::from(written)))
    };
    format!(
        "servers of {} entries, weight and capacity alike; ids are filed by `archive_picks` from a first id \
         on until one goes to a full server; mean and range over {first_ids} first ids, and with most servers \
         one first id, 0. Writes to an archive of 6 servers of {} entries were refused (6, the server is \
         full) after {} ids in sequence and {} scattered ones of {}, as the picks say. In archives filled to \
         nine tenths, with the weights set to what is free at every tenth, a lookup opened {:.2} servers on \
         average (6 servers of {} entries) and {:.2} (256 of 1,024); with weights that stay it is 1.",
        whole(u64::from(CAPACITY)),
        whole(u64::from(WRITTEN_CAPACITY)),
        part(sequence),
        part(scattered),
        whole(u64::from(all)),
        opened_reweighted(6, WRITTEN_CAPACITY),
        whole(u64::from(WRITTEN_CAPACITY)),
        opened_reweighted(256, 1_024)
    )
}

pub fn run(setting: Setting, report: &mut Report) {
    let began = Instant::now();
    let mut random = Random::new(setting.seed);
    let many = setting.either(16, 2) as usize;
    let most = setting.either(256, 64) as usize;
    let sizes = [(6, many), (16, many), (most, 1)];
    let sizes = sizes.map(|(servers, count)| (servers, firsts(&mut random, count)));
    let measured = measured(&sizes);
    let line = |(name, fills): &(&str, [[f64; 3]; 3])| {
        [name.to_string()]
            .into_iter()
            .chain(fills.iter().map(shown))
            .collect()
    };
    let head = sizes
        .iter()
        .map(|(servers, _)| format!("fill, {servers} servers"));
    let table = Table {
        name: "fill",
        seeded: true,
        set_up: set_up(many, check_writes(report)),
        head: ["Ids".to_string()].into_iter().chain(head).collect(),
        rows: measured.iter().map(line).collect(),
    };
    report.table(setting, began, table);
    report.picture("fill", picture(&sizes, &measured));
}
