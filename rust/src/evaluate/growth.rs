//! A storage that grows as in source document 000's section IV-B-2, by picks, writes and lookups of
//! the proved archive.

use std::ops::Range;

use super::growth_model::Opened;
use super::ids::Map;
use super::report::Setting;
use super::store::Store;
use crate::calls::Call;
use ticket_archive::{functions as proved, BLANK};

/// How many ids stand in the archive for each 100 TB, and of how many of those one is asked for its
/// readable servers.
const KEPT: u32 = 50;
const ASKED: usize = 4;

/// The weight of 1 PB.
const WHOLE: u32 = 10_000;

/// The entries of a server: a whole weight, and what is in the archive of twice the volume. "Servers
/// that had more data than their volume were ignored" in the published run.
const CAPACITY: u32 = WHOLE + 20 * KEPT;

/// How many ids are lent in one list.
const CHUNK: u32 = 1 << 14;

/// One storage that is grown and filled.
#[derive(Clone, Copy)]
pub struct Plan {
    pub servers: usize,
    /// It grows whenever so many tenths of it are filled.
    pub tenths: u32,
    /// How many data are 100 TB.
    pub step: u32,
    pub first: u32,
    pub map: Map,
}

impl Plan {
    /// Of how many ids one is in the archive.
    fn kept(&self) -> u32 {
        self.step / KEPT
    }
}

/// The storage under way: `volumes` are what the servers have by now, of which `used` is used, in
/// data. `archive_picks` says where each datum goes. One in so many is written to the archive, which
/// has the same weights.
struct Growing {
    plan: Plan,
    store: Store,
    weights: Vec<u32>,
    volumes: Vec<u32>,
    used: Vec<u32>,
    written: u32,
}

impl Growing {
    fn new(plan: Plan) -> Self {
        let mut growing = Growing {
            plan,
            store: Store::start(CAPACITY, plan.servers),
            weights: Vec::new(),
            volumes: Vec::new(),
            used: Vec::new(),
            written: 0,
        };
        growing.add_server();
        growing.reweight();
        growing
    }

    fn add_server(&mut self) {
        self.volumes.push(self.plan.step);
        self.used.push(0);
        self.weights.push(0);
        self.store.add_server(0);
    }

    /// The weight of the volume that is free, for servers that are over-full 0.
    fn free(&self, server: usize) -> u32 {
        let free = self.volumes[server].saturating_sub(self.used[server]);
        (u64::from(free) * u64::from(WHOLE / 10) / u64::from(self.plan.step)) as u32
    }

    fn total(&self) -> u32 {
        self.volumes.iter().sum()
    }

    fn id(&self, number: u32) -> u32 {
        (self.plan.map)(self.plan.first + number)
    }

    /// Writes until so many were written in all.
    fn write_up_to(&mut self, written: u32) {
        let mut servers = vec![0; CHUNK as usize];
        while self.written < written {
            let numbers = self.written..written.min(self.written + CHUNK);
            let ids: Vec<u32> = numbers.clone().map(|number| self.id(number)).collect();
            let picked = proved::picks(&self.weights, 0, &ids, &mut servers);
            assert_eq!(picked, ids.len(), "the weights are in range");
            for &server in &servers[..picked] {
                self.used[server as usize] += 1;
            }
            let is_kept = |&(number, _): &(u32, u32)| number % self.plan.kept() == 0;
            let kept: Vec<(u32, u32)> = numbers
                .clone()
                .zip(servers.clone())
                .filter(is_kept)
                .collect();
            let list = kept
                .iter()
                .map(|&(number, _)| Call::write(self.id(number), number));
            let list: Vec<Call> = list.collect();
            let replies = self.store.accepted(&list);
            let went = replies.iter().map(|reply| reply.server);
            assert!(
                went.eq(kept.iter().map(|kept| kept.1)),
                "writes go where picks say"
            );
            self.written = numbers.end;
        }
    }

    /// Another 100 TB for the last server, or another server.
    fn grow(&mut self) {
        let last = self.volumes.len() - 1;
        if self.volumes[last] < 10 * self.plan.step {
            self.volumes[last] += self.plan.step;
        } else {
            self.add_server();
        }
        self.reweight();
    }

    /// Makes every weight the volume that is free. The weights of all servers but the last fall, so
    /// they are set from the highest down, and the last, which grows, at the end: no WriteP is above
    /// its new value on the way.
    fn reweight(&mut self) {
        let last = self.volumes.len() - 1;
        self.weights = (0..=last).map(|server| self.free(server)).collect();
        let servers = (0..last).rev().chain([last]);
        let set = |server: usize| Call::Reweight {
            server: server as u32,
            weight: self.weights[server],
        };
        let list: Vec<Call> = servers.map(set).collect();
        self.store.accepted(&list);
    }

    fn is_grown(&self) -> bool {
        let last = self.volumes.last().copied();
        self.volumes.len() == self.plan.servers && last >= Some(10 * self.plan.step)
    }

    /// The numbers below `end` whose ids are in the archive.
    fn kept(&self, numbers: Range<u32>) -> Vec<u32> {
        let kept = self.plan.kept();
        let begin = numbers.start.next_multiple_of(kept);
        (begin..numbers.end).step_by(kept as usize).collect()
    }

    /// The opened counts of lookups of the ids of numbers, each of which has to answer its number:
    /// their sum, and how many there are.
    fn opened(&mut self, numbers: Range<u32>) -> [f64; 2] {
        let kept = self.kept(numbers);
        let list: Vec<Call> = kept
            .iter()
            .map(|&number| Call::lookup(self.id(number)))
            .collect();
        let mut sum = 0;
        self.store.each(&list, |at, reply| {
            assert_eq!((reply.refusal, reply.value), (0, kept[at]));
            sum += u64::from(reply.opened);
        });
        [sum as f64, kept.len() as f64]
    }

    /// The readable servers of some written ids: on blank words a lookup opens all of them.
    fn readable(mut self) -> f64 {
        let some = self.kept(0..self.written);
        let some = some.iter().step_by(ASKED);
        let list: Vec<Call> = some.map(|&number| Call::lookup(self.id(number))).collect();
        self.store.medium.fill(BLANK);
        let mut sum = 0;
        self.store.each(&list, |_, reply| {
            assert_eq!(reply.refusal, 8, "nothing is found on blank words");
            sum += u64::from(reply.opened);
        });
        sum as f64 / list.len() as f64
    }
}

/// Grows, fills and reads a storage.
pub fn measured(plan: Plan) -> Opened {
    let mut growing = Growing::new(plan);
    while !growing.is_grown() {
        growing.write_up_to((u64::from(growing.total()) * u64::from(plan.tenths) / 10) as u32);
        growing.grow();
    }
    let before = growing.written;
    growing.write_up_to(growing.total());
    let written = growing.written;
    let early = growing.opened(0..before);
    let late = growing.opened(before..written);
    Opened {
        before: (before > 0).then(|| early[0] / early[1]),
        all: (early[0] + late[0]) / (early[1] + late[1]),
        readable: growing.readable(),
    }
}

/// The mean of some storages, fewer where one has many servers.
pub fn mean(plan: Plan, setting: Setting) -> Opened {
    let storages = (setting.either(16, 2) as usize / plan.servers).max(1);
    let of = |storage: usize| {
        let first = ((setting.seed as u32).wrapping_sub(1) % 8 << 27) + ((storage as u32) << 21);
        measured(Plan { first, ..plan })
    };
    let all: Vec<Opened> = (0..storages).map(of).collect();
    let mean = |part: fn(&Opened) -> f64| all.iter().map(part).sum::<f64>() / storages as f64;
    Opened {
        readable: mean(|one| one.readable),
        before: all[0].before.map(|_| mean(|one| one.before.unwrap_or(0.0))),
        all: mean(|one| one.all),
    }
}
