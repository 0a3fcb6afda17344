//! What source document 000's section IV-B-2 comes to by the rule alone: expected values for draws
//! that have nothing to do with each other, and data without a size. No scaling, no chance.

/// What figures 2, 3 and 4 show.
#[derive(Clone, Copy, Debug)]
pub struct Opened {
    /// The readable servers of an id (figure 2).
    pub readable: f64,
    /// The servers opened for an id written before the growth ended (figure 3), if there is one.
    pub before: Option<f64>,
    /// The servers opened for an id (figure 4).
    pub all: f64,
}

/// Data written while no weight changed.
struct Phase {
    amount: f64,
    write: Vec<f64>,
    shares: Vec<f64>,
}

/// A storage that grows.
#[derive(Default)]
pub struct Model {
    volumes: Vec<f64>,
    used: Vec<f64>,
    read: Vec<f64>,
    phases: Vec<Phase>,
}

impl Model {
    /// Another server of this volume.
    pub fn add_server(&mut self, volume: f64) {
        self.volumes.push(volume);
        self.used.push(0.0);
        self.read.push(0.0);
    }

    /// WriteP of each server, its volume that is not used being its weight.
    fn write(&self) -> Vec<f64> {
        let mut sum = 0.0;
        let servers = self.volumes.iter().zip(&self.used).enumerate();
        servers
            .map(|(server, (volume, used))| {
                let free = (volume - used).max(0.0);
                sum += free;
                match server {
                    0 => 1.0,
                    _ if free > 0.0 => free / sum,
                    _ => 0.0,
                }
            })
            .collect()
    }

    /// Sets WriteP and ReadP, and writes so much.
    pub fn settle_and_write(&mut self, amount: f64) {
        let write = self.write();
        for (read, write) in self.read.iter_mut().zip(&write) {
            *read = read.max(*write);
        }
        let shares = shares(&write);
        for (used, share) in self.used.iter_mut().zip(&shares) {
            *used += amount * share;
        }
        self.phases.push(Phase {
            amount,
            write,
            shares,
        });
    }

    /// The servers opened for an id of a phase. A server above the one written to was not picked, so
    /// its draw is at least WriteP; it is opened if the draw is below ReadP.
    fn opened(&self, phase: &Phase) -> f64 {
        let mut above = 0.0;
        let mut opened = 0.0;
        for server in (0..self.read.len()).rev() {
            let write = phase.write.get(server).copied().unwrap_or(0.0);
            let share = phase.shares.get(server).copied().unwrap_or(0.0);
            opened += share * (1.0 + above);
            if write < 1.0 {
                above += (self.read[server] - write) / (1.0 - write);
            }
        }
        opened
    }

    /// The servers opened for an id of the phases, if they wrote any.
    fn mean(&self, phases: &[Phase]) -> Option<f64> {
        let amount: f64 = phases.iter().map(|phase| phase.amount).sum();
        let opened = phases.iter().map(|phase| phase.amount * self.opened(phase));
        (amount > 0.0).then(|| opened.sum::<f64>() / amount)
    }

    pub fn result(&self) -> Opened {
        let (_, before) = self.phases.split_last().expect("something was written");
        Opened {
            readable: self.read.iter().sum(),
            before: self.mean(before),
            all: self.mean(&self.phases).expect("something was written"),
        }
    }

    fn total(&self) -> f64 {
        self.volumes.iter().sum()
    }
}

/// The shares of writes that each server gets.
pub fn shares(write: &[f64]) -> Vec<f64> {
    let mut left = 1.0;
    let mut shares = vec![0.0; write.len()];
    for (share, write) in shares.iter_mut().zip(write).rev() {
        *share = left * write;
        left *= 1.0 - write;
    }
    shares
}

/// Volumes in TB: servers grow by 100 up to 1,000 whenever the part `full` of the storage is filled,
/// up to so many servers; then the storage is filled.
pub fn grown(servers: usize, full: f64) -> Opened {
    let (step, most) = (100.0, 1_000.0);
    let mut model = Model::default();
    model.add_server(step);
    let mut written = 0.0;
    loop {
        let last = model.volumes.len() - 1;
        let is_grown = model.volumes.len() == servers && model.volumes[last] >= most;
        let part = if is_grown { 1.0 } else { full };
        let amount = (part * model.total() - written).max(0.0);
        model.settle_and_write(amount);
        written += amount;
        match is_grown {
            true => return model.result(),
            false if model.volumes[last] < most => model.volumes[last] += step,
            false => model.add_server(step),
        }
    }
}

#[cfg(test)]
mod tests {
    use super::*;

    #[test]
    fn nothing_written_before_growth_ended_opens_one_server() {
        let opened = grown(4, 0.0);
        assert!((opened.all - 1.0).abs() < 1e-9);
        assert!(opened.before.is_none());
        // WriteP is 1, 1/2, 1/3, 1/4 at last, and each was never greater.
        assert!((opened.readable - 25.0 / 12.0).abs() < 1e-9);
    }

    #[test]
    fn one_server_is_the_one_opened() {
        let opened = grown(1, 0.5);
        assert!((opened.readable - 1.0).abs() < 1e-9);
        assert!((opened.before.unwrap() - 1.0).abs() < 1e-9);
    }

    #[test]
    fn half_full_growth_is_as_published() {
        let opened = grown(256, 0.5);
        assert!(opened.readable < 11.0 && opened.before.unwrap() < 3.0);
        assert!((opened.all - 1.98).abs() < 0.01);
    }
}
