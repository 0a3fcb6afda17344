//! Nothing moved at growth: the words of the medium that are altered when a server is added, against
//! the ids that ASURA and consistent hashing would move.

use std::time::Instant;

use super::asura::Asura;
use super::chart::{Axis, Bars};
use super::report::{row, Report, Setting, Table};
use super::ring::Ring;
use super::scale::whole;
use super::store::Store;
use crate::calls::Call;
use ticket_archive::{functions as proved, server_words, BLANK};

/// The servers before one is added.
const BEFORE: [usize; 4] = [6, 16, 64, 255];

/// The entries of a server, and the ids written for each.
const CAPACITY: u32 = 1_000;
const WRITTEN: u32 = 500;

/// What adding a server to an archive does.
struct Added {
    ids: u32,
    altered: usize,
    found: u32,
    /// The ids that a write would now put elsewhere; their entries stay.
    picked_anew: u32,
}

fn picks(weights: &[u32], ids: &[u32]) -> Vec<u32> {
    let mut picked = vec![0; ids.len()];
    let stored = proved::picks(weights, 0, ids, &mut picked);
    assert_eq!(stored, ids.len(), "the weights are in range");
    picked
}

/// Writes ids to an archive, adds a server, gives every server its free entries as weight, and looks
/// every id up.
fn added(servers: usize) -> Added {
    let mut store = Store::with_servers(CAPACITY, servers, servers + 1, CAPACITY);
    let ids: Vec<u32> = (0..WRITTEN * servers as u32).collect();
    let list: Vec<Call> = ids.iter().map(|&id| Call::write(id, id)).collect();
    let replies = store.accepted(&list);
    let before = store.medium.clone();
    store.add_server(CAPACITY);
    let mut free = vec![CAPACITY; servers + 1];
    replies
        .iter()
        .for_each(|reply| free[reply.server as usize] -= 1);
    store.reweight_all(&free);
    let altered = before
        .iter()
        .zip(&store.medium)
        .filter(|(one, other)| one != other);
    let altered = altered.count();
    assert!(store.medium[servers * server_words(CAPACITY)..]
        .iter()
        .all(|&word| word == BLANK));
    let list: Vec<Call> = ids.iter().map(|&id| Call::lookup(id)).collect();
    let mut found = 0;
    store.each(&list, |at, reply| {
        found += u32::from(reply.refusal == 0 && reply.value == ids[at])
    });
    let old = picks(&vec![CAPACITY; servers], &ids);
    let new = picks(&free, &ids);
    Added {
        ids: ids.len() as u32,
        altered,
        found,
        picked_anew: old.iter().zip(&new).filter(|(old, new)| old != new).count() as u32,
    }
}

/// How many ids have another server when there is one more.
fn moved(ids: u32, before: impl Fn(u32) -> usize, after: impl Fn(u32) -> usize) -> u32 {
    (0..ids).filter(|&id| before(id) != after(id)).count() as u32
}

/// The ids that ASURA and consistent hashing move on the same ids.
fn moved_by_others(servers: usize, ids: u32) -> [u32; 2] {
    let asura = [servers, servers + 1].map(Asura::equal);
    let ring = [servers, servers + 1].map(Ring::of);
    [
        moved(ids, |id| asura[0].server(id), |id| asura[1].server(id)),
        moved(ids, |id| ring[0].server(id), |id| ring[1].server(id)),
    ]
}

fn part(moved: u32, ids: u32) -> f64 {
    100.0 * f64::from(moved) / f64::from(ids)
}

/// A row of the table.
fn line(servers: usize, added: &Added, [asura, ring]: [u32; 2]) -> Vec<String> {
    let number = |number: u32| whole(u64::from(number));
    let shown = |moved: u32| format!("{} ({:.2} %)", number(moved), part(moved, added.ids));
    vec![
        format!("{servers} to {}", servers + 1),
        number(added.ids),
        whole(added.altered as u64),
        format!("{} of {}", number(added.found), number(added.ids)),
        shown(asura),
        shown(ring),
        shown(added.picked_anew),
    ]
}

fn table(measured: &[(usize, Added, [u32; 2])]) -> Table {
    let lines = measured
        .iter()
        .map(|(servers, added, others)| line(*servers, added, *others));
    Table {
        name: "moved",
        seeded: false,
        set_up: format!(
            "servers of {CAPACITY} entries; {WRITTEN} ids in sequence for each server are written; then a server \
             is added and every weight set to the entries that are free. ASURA with segments of length 1 and a \
             first range of 16, consistent hashing with 100 virtual nodes a server, on the same ids. 1/(n + 1) \
             of the ids is the least that an even distribution has to move."
        ),
        head: row([
            "Servers",
            "ids",
            "words altered, proved archive",
            "found after it",
            "ids moved, ASURA",
            "ids moved, consistent hashing",
            "ids that a later write would put elsewhere, proved archive",
        ]),
        rows: lines.collect(),
    }
}

fn picture(measured: &[(usize, Added, [u32; 2])]) -> String {
    let names = ["proved archive", "ASURA", "consistent hashing"];
    let parts = |at: usize| {
        let part_of = |(_, added, [asura, ring]): &(usize, Added, [u32; 2])| {
            Some(part([0, *asura, *ring][at], added.ids))
        };
        measured.iter().map(part_of).collect()
    };
    Bars {
        title: "Ids moved when a server is added".into(),
        x_name: "servers before",
        y: Axis::linear("ids moved, % of all", [0.0, 20.0]),
        groups: BEFORE.map(|servers| servers.to_string()).to_vec(),
        series: names
            .iter()
            .enumerate()
            .map(|(at, name)| (name.to_string(), parts(at)))
            .collect(),
        shown: |part| format!("{part:.1}").replace("0.0", "0"),
    }
    .drawn()
}

pub fn run(setting: Setting, report: &mut Report) {
    let began = Instant::now();
    let measured = BEFORE.map(|servers| {
        let added = added(servers);
        let others = moved_by_others(servers, added.ids);
        (servers, added, others)
    });
    for (_, added, _) in &measured {
        report.require(added.altered == 0, "adding a server alters no word");
        report.require(
            added.found == added.ids,
            "every id is found after a server was added",
        );
    }
    report.table(setting, began, table(&measured));
    report.picture("moved", picture(&measured));
}
