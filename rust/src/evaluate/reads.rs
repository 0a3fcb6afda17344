//! Source document 000's section IV-C, without its network: how many reads a growing storage of
//! eight servers takes, and how evenly eight servers are filled.

use std::time::Instant;

use super::asura::Asura;
use super::filing::{errors, picked, worst};
use super::growth_model::Model;
use super::ids::in_sequence;
use super::report::{row, size, Report, Setting, Table};
use super::ring::Ring;
use super::scale::whole;
use super::store::Store;
use crate::calls::Call;

const SERVERS: usize = 8;

/// The entries of a server, and those that stand for its million data.
const CAPACITY: u32 = 20_000;
const VOLUME: u32 = 10_000;

/// How many data an entry stands for.
const SCALE: u32 = 1_000_000 / VOLUME;

/// The data written with so many servers: 500,000, and with all of them 4,500,000.
fn written_with(servers: usize) -> u32 {
    let step = VOLUME / 2;
    match servers {
        SERVERS => 9 * step,
        _ => step,
    }
}

/// The reads for all ids of a storage that grew, scaled up. A weight is what is free of a server's
/// million, or the same for all.
fn reads(by_free: bool) -> f64 {
    let mut store = Store::start(CAPACITY, SERVERS);
    let mut used = vec![0; SERVERS];
    let mut written = 0;
    for servers in 1..=SERVERS {
        store.add_server(0);
        let free = |server: usize| VOLUME.saturating_sub(used[server]);
        let weight = |server| if by_free { free(server) } else { 1 };
        store.reweight_all(&(0..servers).map(weight).collect::<Vec<u32>>());
        let ids = written..written + written_with(servers);
        let list: Vec<Call> = ids.clone().map(|id| Call::write(id, id)).collect();
        let replies = store.accepted(&list);
        replies
            .iter()
            .for_each(|reply| used[reply.server as usize] += 1);
        written = ids.end;
    }
    let list: Vec<Call> = (0..written).map(Call::lookup).collect();
    let mut opened = 0;
    store.each(&list, |id, reply| {
        assert_eq!((reply.refusal, reply.value), (0, id as u32));
        opened += u64::from(reply.opened);
    });
    opened as f64 * f64::from(SCALE)
}

/// The same by the rule alone; servers of a volume beyond measure have equal weights.
fn expected(volume: f64) -> f64 {
    let mut model = Model::default();
    for servers in 1..=SERVERS {
        model.add_server(volume);
        model.settle_and_write(f64::from(written_with(servers) * SCALE));
    }
    8_000_000.0 * model.result().all
}

fn millions(reads: f64) -> String {
    whole((reads / 1_000.0).round() as u64 * 1_000)
}

/// How far the worst of eight servers is from its share of so many ids in sequence.
fn error_by(ids: u32, server: impl Fn(u32) -> usize) -> f64 {
    let mut counts = vec![0; SERVERS];
    (0..ids).for_each(|id| counts[server(id)] += 1);
    worst(&errors(&[1; SERVERS], &counts)).1
}

/// The reads of a growing storage, published, measured and by the rule alone.
fn read_rows() -> Vec<Vec<String>> {
    let line = |name: &str, by_free: bool, volume: f64| {
        let [measured, rule] = [reads(by_free), expected(volume)].map(millions);
        row([name, "around 11,400,000", &measured, &rule])
    };
    vec![
        line(
            "reads of 8,000,000 data, weights being what is free of 1,000,000",
            true,
            1e6,
        ),
        line("reads of 8,000,000 data, equal weights", false, 1e15),
        row([
            "reads of 8,000,000 data, consistent hashing",
            "8,000,000",
            "8,000,000",
            "8,000,000",
        ]),
    ]
}

/// The largest errors of eight servers, published and measured.
fn error_rows(ids: u32) -> Vec<Vec<String>> {
    let (asura, ring) = (Asura::equal(SERVERS), Ring::of(SERVERS));
    let counts = picked(&[1; SERVERS], in_sequence, 0..u64::from(ids));
    let proved = size(worst(&errors(&[1; SERVERS], &counts)).1);
    let ring = size(error_by(ids, |id| ring.server(id)));
    let asura = size(error_by(ids, |id| asura.server(id)));
    let named = "largest error, Sequential Checking (measured: `archive_picks`)";
    vec![
        row([named, "around 0.2 %", &proved, ""]),
        row([
            "largest error, consistent hashing, 100 virtual nodes",
            "around 23.3 %",
            &ring,
            "",
        ]),
        row(["largest error, ASURA", "not in 000", &asura, ""]),
    ]
}

pub fn run(setting: Setting, report: &mut Report) {
    let began = Instant::now();
    let ids = setting.either(8_000_000, 800_000) as u32;
    let table = Table {
        name: "section-4c",
        seeded: false,
        set_up: format!(
            "8 servers; the reads are those of an archive that grows from 1 server to 8, {} writes at each \
             and {} at the last, {SCALE} times fewer than published; what a server's weight was is not \
             published, so both ways are run. The errors are of {} ids in sequence over 8 servers of one \
             weight.",
            whole(u64::from(written_with(1))),
            whole(u64::from(written_with(SERVERS))),
            whole(u64::from(ids))
        ),
        head: row(["", "published", "measured", "by the rule alone"]),
        rows: [read_rows(), error_rows(ids)].concat(),
    };
    report.table(setting, began, table);
}
