//! What is said of a whole clip.

use super::quantiles::Quantiles;
use super::{Pair, Scale};
use crate::report::words;
use belt::Motion;
use std::fmt::Write;

/// The order in which statuses are told.
const STATUSES: [&str; 6] = ["measured", "still", "unexplained", "flat", "no-blocks", "bad"];

/// Sums over the pairs of a clip.
#[derive(Default)]
pub struct Summary {
    pub pairs: u64,
    by_status: [u64; STATUSES.len()],
    /// How many are warned of, unexplained or bad.
    pub troubled: u64,
    speeds: Quantiles,
    scale: Scale,
    /// The length of the way, and where it ended, in pels.
    length: f64,
    end: [f64; 2],
    /// The pair that says least, and by what it was chosen.
    worst: Option<(f64, String)>,
}

impl Summary {
    pub fn add(&mut self, pair: &Pair) {
        self.pairs += 1;
        let status = pair.status();
        STATUSES.iter().zip(&mut self.by_status).filter(|(own, _)| **own == status).for_each(|(_, count)| *count += 1);
        self.scale = Scale { rate: self.scale.rate.or(pair.scale.rate), ..pair.scale };
        if let (Some(Motion { u, v }), Some(speed)) = (pair.way(), pair.speed()) {
            self.length += u.hypot(v);
            self.end = [self.end[0] + u, self.end[1] + v];
            self.speeds.add(speed);
        }
        if let Some(trouble) = pair.trouble() {
            self.troubled += 1;
            let bad = badness(pair);
            if self.worst.as_ref().is_none_or(|(worst, _)| bad > *worst) {
                self.worst = Some((bad, format!("{} to {}: {trouble}", pair.first, pair.second)));
            }
        }
    }

    /// Whether no pair could be measured for want of frames that can be read.
    pub fn is_all_bad(&self) -> bool {
        self.by_status[STATUSES.len() - 1] == self.pairs
    }

    pub fn text(&self) -> String {
        let counts = STATUSES.iter().zip(self.by_status).filter(|(_, count)| *count > 0);
        let counts: Vec<String> =
            counts.map(|(status, count)| format!("{} {status}", words::count(count as usize))).collect();
        let mut text = format!("\n{}: {}", words::many(self.pairs as usize, "pair"), counts.join(", "));
        let _ = match self.troubled {
            0 => writeln!(text),
            troubled => writeln!(text, "; {} warned of, unexplained or bad", words::count(troubled as usize)),
        };
        if let [Some(low), Some(median), Some(high)] = [0.05, 0.5, 0.95].map(|share| self.speeds.at(share)) {
            let unit = self.scale.speed();
            let _ = writeln!(text, "  speed  {median:.3} {unit} in the median, {low:.3} to {high:.3} from 5 to 95 %");
            let (unit, times) = self.scale.length();
            let [right, down] = self.end;
            let end = words::motion_in(Motion { u: right * times, v: down * times }, unit);
            let known = self.by_status[0] + self.by_status[1];
            let rest = if known < self.pairs { ", but for what wasn't measured" } else { "" };
            let _ = writeln!(text, "  path   {:.3} {unit} long, to {end}{rest}", self.length * times);
        }
        if let Some((_, worst)) = &self.worst {
            let _ = writeln!(text, "  worst  {worst}");
        }
        text
    }
}

/// How little a pair says: bad is worse than unexplained, and that than a warning; among these by the blocks that agree.
fn badness(pair: &Pair) -> f64 {
    match &pair.found {
        Err(_) => 4.0,
        Ok(measured) if measured.answer.status.is_known() => 1.0 - measured.share(),
        Ok(measured) => 3.0 - measured.share(),
    }
}

#[cfg(test)]
mod tests {
    use super::super::tests::pair;
    use super::*;

    #[test]
    fn it_counts_and_adds_up() {
        let mut summary = Summary::default();
        let moves = [Some(4), Some(4), None, Some(-6), Some(0)];
        let scale = Scale { rate: Some(10.0), millimetres: Some(0.5) };
        moves.iter().zip(0..).for_each(|(right, number)| summary.add(&pair(number, *right, scale)));
        let text = summary.text();
        assert!(text.starts_with("\n5 pairs: 3 measured, 1 still, 1 bad; 1 warned of, unexplained or bad\n"), "{text}");
        // 4, 4, 6 and 0 pels in 0.2 s each
        assert!(
            text.contains("  path   7.") && text.contains(" mm long, to 1") && text.contains(" mm right"),
            "{text}"
        );
        assert!(text.contains(", but for what wasn't measured\n"), "{text}");
        assert!(text.ends_with("  worst  a to b: bad: cut short\n"), "{text}");
        assert!((summary.speeds.at(0.5).unwrap() - 10.0).abs() < 0.2, "{text}");
        assert!(!summary.is_all_bad());
        let mut bad = Summary::default();
        bad.add(&pair(0, None, scale));
        assert!(bad.is_all_bad() && !bad.text().contains("speed"));
    }
}
