//! What was found in a clip, pair by pair: a row of each for programs (`row`), a summary (`summary`), a plot (`plot`).

pub mod plot;
mod quantiles;
mod row;
mod summary;

pub use row::Row;
pub use summary::Summary;

use crate::measure::Measured;
use crate::report::words;
use belt::Motion;
use track::Status;

/// The status of a pair that has a frame which can't be read or measured.
const BAD: &str = "bad";

/// Two frames of a clip and what was found between them.
pub struct Pair {
    /// Counted from 0.
    pub number: u64,
    pub first: String,
    pub second: String,
    /// The numbers of the frames in the clip, from 0.
    pub frames: (u64, u64),
    /// What is known of its time and its size.
    pub scale: Scale,
    /// What was measured, or why nothing could be.
    pub found: Result<Measured, String>,
}

/// Frames a second, and the millimetres of a pel, where they are known.
#[derive(Clone, Copy, Debug, Default, PartialEq)]
pub struct Scale {
    pub rate: Option<f64>,
    pub millimetres: Option<f64>,
}

impl Scale {
    /// The unit of lengths, and what a pel is of it.
    pub fn length(self) -> (&'static str, f64) {
        self.millimetres.map_or(("pels", 1.0), |millimetres| ("mm", millimetres))
    }

    /// The unit of speeds.
    pub fn speed(self) -> String {
        format!("{}{}", self.length().0, if self.rate.is_some() { "/s" } else { " a pair" })
    }
}

impl Pair {
    pub fn status(&self) -> &'static str {
        self.found.as_ref().map_or(BAD, |measured| measured.answer.status.name())
    }

    /// When its second frame was taken, in seconds from the clip's first on.
    pub fn time(&self) -> Option<f64> {
        self.scale.rate.map(|rate| self.frames.1 as f64 / rate)
    }

    /// What was measured, where a motion is known.
    fn known(&self) -> Option<&Measured> {
        self.found.as_ref().ok().filter(|measured| measured.answer.status.is_known())
    }

    /// How far it went, in pels: nowhere if it stood still, which a little noise doesn't change.
    pub fn way(&self) -> Option<Motion> {
        let measured = self.known()?;
        let stood = measured.answer.status == Status::Still;
        Some(if stood { Motion { u: 0.0, v: 0.0 } } else { measured.middle() })
    }

    /// Its speed, in the scale's units.
    pub fn speed(&self) -> Option<f64> {
        let Motion { u, v } = self.way()?;
        let seconds = self.scale.rate.map_or(1.0, |rate| (self.frames.1 - self.frames.0) as f64 / rate);
        Some(u.hypot(v) * self.scale.length().1 / seconds)
    }

    /// Whether it is warned of.
    pub fn is_warned(&self) -> bool {
        self.found.as_ref().is_ok_and(|measured| !measured.warnings.is_empty())
    }

    /// What makes the answer less than strict: a warning, no motion that explains it, a frame that is bad.
    pub fn trouble(&self) -> Option<String> {
        match &self.found {
            Err(reason) => Some(format!("{BAD}: {reason}")),
            Ok(measured) => match measured.warnings.first() {
                Some(warning) => Some(format!("{}: {}", warning.name, warning.text)),
                None => (measured.answer.status == Status::Unexplained).then(|| self.status().into()),
            },
        }
    }

    /// One line in words.
    pub fn line(&self) -> String {
        match &self.found {
            Err(reason) => format!("{} to {}: {BAD}: {reason}\n", self.first, self.second),
            Ok(measured) => {
                let speed = self.speed().filter(|_| self.scale != Scale::default());
                let speed = speed.map(|speed| format!("{speed:.1} {}", self.scale.speed()));
                words::line(measured, speed.as_deref())
            }
        }
    }
}

#[cfg(test)]
mod tests {
    use super::*;
    use crate::measure::tests::{frame, job};
    use crate::measure::{Job, measure};

    /// A pair of frames between which it went so far, or one that is bad.
    pub fn pair(number: u64, right: Option<i64>, scale: Scale) -> Pair {
        let found = right.map(|right| {
            let (a, b) = (frame("a", 160, 160, 0, right), frame("b", 160, 160, 0, 0));
            measure(&Job { fast: true, ..job(0) }, &a, &b).unwrap()
        });
        let frames = (2 * number, 2 * number + 2);
        let found = found.ok_or("cut short".to_string());
        Pair { number, first: "a".into(), second: "b".into(), frames, scale, found }
    }

    #[test]
    fn speed_has_the_units_that_are_known() {
        let near = |speed: Option<f64>, wanted: f64| (speed.unwrap() - wanted).abs() < 0.02 * wanted;
        let plain = Scale::default();
        assert!(near(pair(0, Some(4), plain).speed(), 4.0) && plain.speed() == "pels a pair");
        let timed = Scale { rate: Some(50.0), millimetres: None };
        // two frames on, so 25 pairs a second
        assert!(near(pair(0, Some(4), timed).speed(), 100.0) && timed.speed() == "pels/s");
        let both = Scale { rate: Some(50.0), millimetres: Some(0.4) };
        assert!(near(pair(0, Some(4), both).speed(), 40.0) && both.speed() == "mm/s");
        assert_eq!(pair(3, Some(0), both).speed(), Some(0.0));
        assert_eq!((pair(3, Some(0), both).time(), pair(3, None, both).speed()), (Some(0.16), None));
    }

    #[test]
    fn a_bad_pair_says_why() {
        let bad = pair(1, None, Scale::default());
        assert_eq!((bad.status(), bad.line().as_str()), ("bad", "a to b: bad: cut short\n"));
        assert_eq!(bad.trouble().unwrap(), "bad: cut short");
        let both = Scale { rate: Some(50.0), millimetres: Some(0.4) };
        let line = pair(1, Some(4), both).line();
        assert!(line.starts_with("a to b: It moved 4") && line.contains("; 40.2 mm/s; "), "{line}");
    }
}
