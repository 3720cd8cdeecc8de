//! Timing by turns.

use std::{fmt, time::Instant};

/// So many passes are timed.
const PASSES: usize = 401;

/// The nanoseconds of each pass of each work. The works take turns, so that a
/// slow moment of the machine meets all of them.
pub fn time<const N: usize>(works: [&dyn Fn(); N]) -> [Vec<f64>; N] {
    let mut taken = [(); N].map(|()| Vec::with_capacity(PASSES));
    for _ in 0..PASSES {
        for (work, taken) in works.iter().zip(&mut taken) {
            let start = Instant::now();
            work();
            taken.push(start.elapsed().as_nanos() as f64);
        }
    }
    taken
}

/// A median and the quartiles around it.
pub struct Spread([f64; 3]);

impl Spread {
    /// Of the passes' ratios.
    pub fn of_ratios(over: &[f64], under: &[f64]) -> Self {
        Self::of(over.iter().zip(under).map(|(a, b)| a / b).collect())
    }

    /// Of the values.
    pub fn of(mut values: Vec<f64>) -> Self {
        values.sort_by(f64::total_cmp);
        let at = |quarters| values[(values.len() - 1) * quarters / 4];
        Self([at(1), at(2), at(3)])
    }

    /// The median.
    pub fn median(&self) -> f64 {
        self.0[1]
    }
}

impl fmt::Display for Spread {
    fn fmt(&self, f: &mut fmt::Formatter) -> fmt::Result {
        let [low, median, high] = self.0;
        write!(f, "{median:.2} ({low:.2} to {high:.2})")
    }
}

#[cfg(test)]
mod tests {
    use super::*;

    #[test]
    fn the_middle_and_the_quarters() {
        let spread = Spread::of(vec![5.0, 1.0, 4.0, 2.0, 3.0]);
        assert_eq!(spread.to_string(), "3.00 (2.00 to 4.00)");
        assert_eq!(Spread::of_ratios(&[6.0], &[3.0]).median(), 2.0);
    }
}
