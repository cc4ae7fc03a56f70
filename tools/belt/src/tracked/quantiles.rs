//! Quantiles of any number of values in bounded memory: values are counted in cells a thousandth of their size wide.

use std::collections::BTreeMap;

/// A cell's width of its values.
const WIDTH: f64 = 1e-3;
/// Values below this are one cell, and so are those above its inverse.
const LEAST: f64 = 1e-6;

/// Values that aren't negative.
#[derive(Default)]
pub struct Quantiles {
    /// How many values each cell has, and their sum.
    cells: BTreeMap<i64, (u64, f64)>,
    count: u64,
}

impl Quantiles {
    pub fn add(&mut self, value: f64) {
        let cell = (value.clamp(LEAST, 1.0 / LEAST).ln() / WIDTH).floor() as i64;
        let (count, sum) = self.cells.entry(cell).or_default();
        *count += 1;
        *sum += value;
        self.count += 1;
    }

    /// The value below which this share lies; none without values.
    pub fn at(&self, share: f64) -> Option<f64> {
        let wanted = ((self.count as f64 - 1.0) * share).round() as u64;
        let mut passed = 0;
        let own = self.cells.values().find(|(count, _)| {
            passed += count;
            passed > wanted
        });
        own.map(|(count, sum)| sum / *count as f64)
    }
}

#[cfg(test)]
mod tests {
    use super::*;

    #[test]
    fn they_are_those_of_all_values() {
        let mut quantiles = Quantiles::default();
        assert_eq!(quantiles.at(0.5), None);
        (0..=1000u64).map(|i| i * 7919 % 1001).for_each(|value| quantiles.add(value as f64));
        for (share, wanted) in [(0.0, 0.0), (0.05, 50.0), (0.5, 500.0), (0.95, 950.0), (1.0, 1000.0)] {
            assert!((quantiles.at(share).unwrap() - wanted).abs() <= 1.0, "{share}: {:?}", quantiles.at(share));
        }
        (0..100_000).for_each(|i| quantiles.add(1e-9 * 1.0001f64.powi(i)));
        assert!(quantiles.cells.len() < 30_000);
    }
}
