//! Why a motion isn't to be trusted, and what to do.

use std::fmt;

/// Why a motion isn't to be trusted.
#[derive(Clone, Copy, Debug, PartialEq, Eq, Hash)]
pub enum Warning {
    /// Too few blocks agree to be sure.
    FewBlocks,
    /// Too small a share of the usable blocks agrees.
    FewAgree,
    /// The blocks that agree lie so that the motion elsewhere is a guess.
    IllPlaced,
    /// Another motion explains nearly as much of the picture.
    TwoMotions,
    /// Blocks moved as far as the search looks.
    EndOfRange,
    /// The motion back from the second frame to the first doesn't undo it.
    NotUndone,
}

impl Warning {
    /// All of them.
    pub const ALL: [Self; 6] =
        [Self::FewBlocks, Self::FewAgree, Self::IllPlaced, Self::TwoMotions, Self::EndOfRange, Self::NotUndone];

    /// Its name for programs.
    pub fn name(self) -> &'static str {
        match self {
            Self::FewBlocks => "few-blocks",
            Self::FewAgree => "few-agree",
            Self::IllPlaced => "ill-placed",
            Self::TwoMotions => "two-motions",
            Self::EndOfRange => "end-of-range",
            Self::NotUndone => "not-undone",
        }
    }

    /// What is the matter, and what to do.
    pub fn advice(self) -> &'static str {
        match self {
            Self::FewBlocks => {
                "too few blocks agree on a motion: use a larger picture, or one with more texture and light"
            }
            Self::FewAgree => {
                "most of the blocks that show their motion don't agree with it: take the frames closer together, \
                 or cut out the part of interest with --crop"
            }
            Self::IllPlaced => {
                "the blocks that agree lie in one corner or on one line, so the motion elsewhere is a guess: cut that \
                 part out with --crop, or light the rest"
            }
            Self::TwoMotions => {
                "two parts move differently and neither clearly wins: leave one out with --crop or --mask"
            }
            Self::EndOfRange => {
                "blocks moved as far as the search looks, 27 pels, or further: take the frames closer together, or \
                 halve them with --halve"
            }
            Self::NotUndone => {
                "the motion back from the second picture to the first doesn't undo it: look at both pictures, one may \
                 be blurred, repeated in itself or of something else"
            }
        }
    }
}

impl fmt::Display for Warning {
    fn fmt(&self, f: &mut fmt::Formatter<'_>) -> fmt::Result {
        write!(f, "{}: {}", self.name(), self.advice())
    }
}

#[cfg(test)]
mod tests {
    use super::*;

    #[test]
    fn each_has_a_name_and_a_sentence() {
        let names = Warning::ALL.map(Warning::name);
        assert_eq!(names, ["few-blocks", "few-agree", "ill-placed", "two-motions", "end-of-range", "not-undone"]);
        assert!(Warning::ALL.iter().all(|warning| warning.to_string().len() > 60));
    }
}
