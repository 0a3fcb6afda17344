//! From values to places on a picture, and the ticks of an axis.

/// How values are spread over an axis.
#[derive(Clone, Copy, PartialEq)]
pub enum Spread {
    Linear,
    /// Equal distances for equal ratios, with ticks at powers of this base.
    Log(f64),
}

/// An axis from one place to another for values from `low` to `high`.
#[derive(Clone, Copy)]
pub struct Scale {
    pub spread: Spread,
    pub low: f64,
    pub high: f64,
    pub from: f64,
    pub to: f64,
}

/// About how many ticks a linear axis has.
const TICKS: f64 = 6.0;

impl Scale {
    /// Where a value stands.
    pub fn at(&self, value: f64) -> f64 {
        let part = match self.spread {
            Spread::Linear => (value - self.low) / (self.high - self.low),
            Spread::Log(_) => (value / self.low).ln() / (self.high / self.low).ln(),
        };
        self.from + part * (self.to - self.from)
    }

    /// The values that are written beside the axis: multiples of 1, 2 or 5 times a power of ten, or
    /// powers of the base.
    pub fn ticks(&self) -> Vec<f64> {
        match self.spread {
            Spread::Linear => {
                let step = step(self.high - self.low);
                let first = (self.low / step - 1e-9).ceil() as i64;
                let last = (self.high / step + 1e-9).floor() as i64;
                (first..=last).map(|tick| tick as f64 * step).collect()
            }
            Spread::Log(base) => {
                let first = (self.low.ln() / base.ln() - 1e-9).ceil() as i32;
                let last = (self.high.ln() / base.ln() + 1e-9).floor() as i32;
                (first..=last).map(|tick| base.powi(tick)).collect()
            }
        }
    }
}

/// The distance of the ticks of a linear axis of this length.
fn step(length: f64) -> f64 {
    let rough = length / TICKS;
    let power = 10f64.powf(rough.log10().floor());
    let steps = [1.0, 2.0, 5.0, 10.0].map(|step| step * power);
    steps
        .into_iter()
        .find(|step| *step >= rough)
        .unwrap_or(steps[3])
}

/// A number with as many decimals as it needs, three at most, and commas between thousands.
pub fn label(value: f64) -> String {
    let text = format!("{value:.3}");
    let text = text.trim_end_matches('0').trim_end_matches('.');
    match text.split_once('.') {
        Some((whole, decimals)) => format!("{}.{decimals}", grouped(whole)),
        None => grouped(text),
    }
}

/// Digits with commas between thousands.
fn grouped(digits: &str) -> String {
    let (sign, digits) = match digits.strip_prefix('-') {
        Some(digits) => ("-", digits),
        None => ("", digits),
    };
    let mut text = String::from(sign);
    for (at, digit) in digits.chars().enumerate() {
        if at > 0 && (digits.len() - at) % 3 == 0 {
            text.push(',');
        }
        text.push(digit);
    }
    text
}

/// A whole number with commas between thousands.
pub fn whole(number: u64) -> String {
    grouped(&number.to_string())
}

#[cfg(test)]
mod tests {
    use super::*;

    fn axis(spread: Spread, low: f64, high: f64) -> Scale {
        let (from, to) = (100.0, 500.0);
        Scale {
            spread,
            low,
            high,
            from,
            to,
        }
    }

    #[test]
    fn the_ends_stand_at_the_ends() {
        for spread in [Spread::Linear, Spread::Log(2.0)] {
            let scale = axis(spread, 2.0, 32.0);
            assert!((scale.at(2.0) - 100.0).abs() < 1e-9);
            assert!((scale.at(32.0) - 500.0).abs() < 1e-9);
        }
        assert!((axis(Spread::Linear, 2.0, 32.0).at(17.0) - 300.0).abs() < 1e-9);
        assert!((axis(Spread::Log(10.0), 2.0, 32.0).at(8.0) - 300.0).abs() < 1e-9);
    }

    #[test]
    fn ticks_are_round_and_within_the_axis() {
        assert_eq!(
            axis(Spread::Linear, 0.0, 12.0).ticks(),
            [0.0, 2.0, 4.0, 6.0, 8.0, 10.0, 12.0]
        );
        assert_eq!(
            axis(Spread::Linear, -1.0, 1.0).ticks(),
            [-1.0, -0.5, 0.0, 0.5, 1.0]
        );
        assert_eq!(
            axis(Spread::Log(2.0), 1.0, 9.0).ticks(),
            [1.0, 2.0, 4.0, 8.0]
        );
        assert_eq!(
            axis(Spread::Log(10.0), 5.0, 1_000.0).ticks(),
            [10.0, 100.0, 1_000.0]
        );
    }

    #[test]
    fn labels_are_short() {
        assert_eq!(label(0.0), "0");
        assert_eq!(label(2.5), "2.5");
        assert_eq!(label(-1234.0), "-1,234");
        assert_eq!(label(0.125), "0.125");
        assert_eq!(label(65_536.0), "65,536");
        assert_eq!(whole(1_000_000), "1,000,000");
        assert_eq!(whole(12), "12");
    }
}
