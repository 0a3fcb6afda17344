//! The same growth in plain Rust with a good random number as RAND: what chance alone makes of a
//! storage of that many data.

use super::growth_model::Opened;
use super::ideal::{splitmix, write_server};

/// A storage under way. Each id is kept with the server that it went to.
struct Control {
    step: u32,
    volumes: Vec<u32>,
    used: Vec<u32>,
    weights: Vec<u32>,
    read: Vec<f64>,
    servers: Vec<u8>,
}

impl Control {
    fn new(step: u32) -> Self {
        let mut control = Control {
            step,
            volumes: vec![step],
            used: vec![0],
            weights: Vec::new(),
            read: vec![1.0],
            servers: Vec::new(),
        };
        control.reweight();
        control
    }

    fn reweight(&mut self) {
        let servers = self.volumes.iter().zip(&self.used);
        self.weights = servers
            .map(|(volume, used)| volume.saturating_sub(*used))
            .collect();
        let mut sum = 0.0;
        for (server, &weight) in self.weights.iter().enumerate() {
            sum += f64::from(weight);
            if server > 0 && weight > 0 {
                self.read[server] = self.read[server].max(f64::from(weight) / sum);
            }
        }
    }

    fn grow(&mut self) {
        match self.volumes.last_mut() {
            Some(last) if *last < 10 * self.step => *last += self.step,
            _ => {
                self.volumes.push(self.step);
                self.used.push(0);
                self.read.push(0.0);
            }
        }
        self.reweight();
    }

    fn write_up_to(&mut self, written: u32) {
        let sum = self.weights.iter().map(|&weight| u64::from(weight)).sum();
        for id in self.servers.len() as u32..written {
            let server = write_server(&self.weights, sum, splitmix, id);
            self.used[server] += 1;
            self.servers.push(server as u8);
        }
    }

    /// How many servers from `lowest` up are readable for an id.
    fn readable_from(&self, lowest: usize, id: u32) -> u64 {
        let is_readable =
            |&server: &usize| f64::from(splitmix(id, server)) < self.read[server] * 4_294_967_296.0;
        (lowest..self.read.len()).filter(is_readable).count() as u64
    }

    /// The mean of the readable servers of some ids, from the server that each went to or from 0 up.
    fn mean(&self, ids: std::ops::Range<u32>, is_whole: bool) -> f64 {
        let some: Vec<u32> = ids.step_by(20).collect();
        let lowest = |id: u32| {
            if is_whole {
                0
            } else {
                usize::from(self.servers[id as usize])
            }
        };
        let sum: u64 = some
            .iter()
            .map(|&id| self.readable_from(lowest(id), id))
            .sum();
        sum as f64 / some.len() as f64
    }
}

/// Grows and fills a storage of at most so many servers, 100 TB being so many data.
pub fn controlled(servers: usize, tenths: u32, step: u32) -> Opened {
    let mut control = Control::new(step);
    let total = |control: &Control| {
        control
            .volumes
            .iter()
            .map(|&volume| u64::from(volume))
            .sum::<u64>()
    };
    while control.volumes.len() < servers || control.volumes[servers - 1] < 10 * step {
        control.write_up_to((total(&control) * u64::from(tenths) / 10) as u32);
        control.grow();
    }
    let before = control.servers.len() as u32;
    let all = total(&control) as u32;
    control.write_up_to(all);
    Opened {
        readable: control.mean(0..all, true),
        before: (before > 0).then(|| control.mean(0..before, false)),
        all: control.mean(0..all, false),
    }
}

#[cfg(test)]
mod tests {
    use super::*;
    use crate::evaluate::growth_model::grown;

    #[test]
    fn many_data_come_near_the_rule_alone() {
        let (control, rule) = (controlled(4, 5, 2_000), grown(4, 0.5));
        assert!((control.readable - rule.readable).abs() < 0.1);
        assert!((control.all - rule.all).abs() < 0.05);
        assert!((control.before.unwrap() - rule.before.unwrap()).abs() < 0.1);
    }
}
