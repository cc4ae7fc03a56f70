//! Why the tool ends without an answer: one line that says what and where, and a status.

use crate::plain;
use belt::Refusal;
use frames::{Unread, one_line};
use record::{Damaged, Why};
use std::fmt;

/// What the tool says on standard error.
#[derive(Debug)]
pub enum Failure {
    /// What it was handed is bad, or a file can't be read or written: status 2.
    Bad { place: String, what: String },
    /// The library refuses: status 1.
    Refused { place: String, refusal: Refusal, advice: String },
    /// It is all done, but not all of it is as strictly as it was asked for: status 3.
    Strict { what: String },
}

impl Failure {
    pub fn bad(place: impl Into<String>, what: impl ToString) -> Self {
        Failure::Bad { place: place.into(), what: what.to_string() }
    }

    pub fn refused(place: impl Into<String>, refusal: Refusal) -> Self {
        Failure::Refused { place: place.into(), refusal, advice: String::new() }
    }

    /// What is wrong with the words of the command line: what stands ahead of the usage, in one line.
    pub fn words(text: &str) -> Self {
        let usage = |line: &&str| line.starts_with("Usage") || line.starts_with("For more information");
        let lines: Vec<&str> = text.lines().map(str::trim).take_while(|line| !usage(line)).collect();
        let said = lines.into_iter().filter(|line| !line.is_empty()).collect::<Vec<_>>().join(" ");
        Failure::bad("the command line", said.strip_prefix("error: ").unwrap_or(&said))
    }

    /// The same refusal with what helps.
    pub fn with_advice(self, text: impl Into<String>) -> Self {
        match self {
            Failure::Refused { place, refusal, .. } => Failure::Refused { place, refusal, advice: text.into() },
            bad => bad,
        }
    }

    /// What is wrong, without where.
    pub fn what(&self) -> String {
        match self {
            Failure::Bad { what, .. } => what.clone(),
            Failure::Refused { refusal, advice, .. } if advice.is_empty() => {
                format!("refused, {}", plain::told(*refusal))
            }
            Failure::Refused { refusal, advice, .. } => format!("refused, {}; {advice}", plain::told(*refusal)),
            Failure::Strict { what } => what.clone(),
        }
    }

    pub fn status(&self) -> u8 {
        match self {
            Failure::Bad { .. } => 2,
            Failure::Refused { .. } => 1,
            Failure::Strict { .. } => 3,
        }
    }
}

impl From<Unread> for Failure {
    fn from(Unread { place, what }: Unread) -> Self {
        Failure::Bad { place, what }
    }
}

impl From<Damaged> for Failure {
    fn from(Damaged { place, why }: Damaged) -> Self {
        match why {
            Why::Bad(what) => Failure::bad(place, what),
            Why::Refused(refusal) => Failure::refused(place, refusal),
        }
    }
}

impl fmt::Display for Failure {
    fn fmt(&self, f: &mut fmt::Formatter<'_>) -> fmt::Result {
        let line = match self {
            Failure::Bad { place, .. } | Failure::Refused { place, .. } => format!("{place}: {}", self.what()),
            Failure::Strict { what } => what.clone(),
        };
        f.write_str(&one_line(&line))
    }
}
