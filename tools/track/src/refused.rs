//! Frames that can't be measured at all.

use belt::{MOST_SIDE, Refusal};
use std::error::Error;
use std::fmt;

/// Why two frames can't be measured.
#[derive(Clone, Copy, Debug, PartialEq, Eq)]
pub enum Refused {
    /// A side is over [`MOST_SIDE`]: cut or halve the frames first.
    TooLarge,
    /// A frame hasn't as many pels as its sides say.
    Pels {
        /// How many it has.
        given: usize,
        /// How many its sides say.
        wanted: usize,
    },
    /// The two frames have different sides.
    Unlike,
    /// The mask hasn't a value for each whole block.
    Mask {
        /// How many it has.
        given: usize,
        /// How many blocks there are.
        wanted: usize,
    },
    /// The words of a search aren't one for each whole block.
    Words {
        /// How many there are.
        given: usize,
        /// How many blocks there are.
        wanted: usize,
    },
    /// The library refused. No case is known.
    Library(Refusal),
}

impl From<Refusal> for Refused {
    fn from(refusal: Refusal) -> Self {
        Self::Library(refusal)
    }
}

impl fmt::Display for Refused {
    fn fmt(&self, f: &mut fmt::Formatter<'_>) -> fmt::Result {
        match self {
            Self::TooLarge => write!(f, "a side is over {MOST_SIDE} pels"),
            Self::Pels { given, wanted } => write!(f, "a frame has {given} pels, and its sides say {wanted}"),
            Self::Unlike => write!(f, "the frames have different sides"),
            Self::Mask { given, wanted } => write!(f, "the mask has {given} blocks, and {wanted} are wanted"),
            Self::Words { given, wanted } => write!(f, "a search has {given} words, and {wanted} are wanted"),
            Self::Library(refusal) => write!(f, "{refusal}"),
        }
    }
}

impl Error for Refused {}
