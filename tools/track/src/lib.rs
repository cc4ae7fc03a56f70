//! The motion between two frames of real footage, and how far to trust it.
//!
//! The library's election judges a model by every block, also those of a flat belt, of a rail that stands still and of
//! noise, so on footage it mostly elects nothing. This crate decides what was *measured*, over the library's search and
//! its plain fits: it takes light away (`normalise`), asks which blocks can tell their motion (`texture`), finds the
//! motion that most of these share (`starts`, `refit`), lets all blocks vote between it and its rivals (`votes`), makes
//! it finer than the search's eighths (`polish`), and warns where it isn't to be trusted (`found`). What isn't warned is
//! checked by the way back unless the agreement is overwhelming, and what is warned is tried on coarser planes
//! (`attempt`). Nothing in it is random: the same frames have the same answer.
//!
//! ```
//! use track::{Frame, Options, Status};
//!
//! // noise that ran three pels to the right and one up
//! let (mut first, mut second) = ([0; 128 * 128], [0; 128 * 128]);
//! belt::make_practice_planes(1, 128, 128, -1, 3, &mut first, &mut second)?;
//! let [first, second] = [&first, &second].map(|pels| Frame { pels, width: 128, height: 128, most: 65_535 });
//! let answer = track::measure(&first, &second, &Options::default())?;
//! assert_eq!(answer.status, Status::Measured);
//! assert!((answer.right - 3.0).abs() < 0.1 && (answer.down + 1.0).abs() < 0.1);
//! # Ok::<(), track::Refused>(())
//! ```
#![forbid(unsafe_code)]
#![deny(missing_docs)]

mod answer;
mod attempt;
mod cloud;
#[cfg(test)]
mod cost;
mod found;
mod left;
mod model;
mod named;
mod normalise;
mod plane;
mod polish;
mod refit;
mod refused;
mod search;
mod shares;
mod starts;
mod texture;
mod votes;
mod warning;

pub use answer::{Answer, How, Status};
pub use model::Model;
pub use named::Named;
pub use normalise::Detail;
pub use refused::Refused;
pub use shares::{Common, Shares};
pub use warning::Warning;

use attempt::{Attempt, coarser};
use plane::{Pair, Plane};
use search::Search;

/// A grey frame, row by row.
#[derive(Clone, Copy, Debug, PartialEq, Eq)]
pub struct Frame<'a> {
    /// The pels, `width` × `height` of them.
    pub pels: &'a [u16],
    /// The sides in pels, at most [`belt::MOST_SIDE`].
    pub width: usize,
    /// The sides in pels, at most [`belt::MOST_SIDE`].
    pub height: usize,
    /// The value of white, such as 255 or 65,535.
    pub most: u16,
}

/// What a measurement is told beside its frames.
#[derive(Clone, Copy, Debug, Default, PartialEq, Eq)]
pub struct Options<'a> {
    /// No way back and no coarser planes: one search and no more.
    pub fast: bool,
    /// For each whole 16×16 block, row by row, whether it is left out.
    pub mask: Option<&'a [bool]>,
}

/// Measures the motion from the first frame to the second.
///
/// # Errors
///
/// [`Refused`] where the frames are too large or unlike, or a list has the wrong length.
pub fn measure(first: &Frame<'_>, second: &Frame<'_>, options: &Options<'_>) -> Result<Answer, Refused> {
    Planes::of(first, second)?.measure(None, options)
}

/// Two frames without their light: the planes that are searched.
#[derive(Clone, Debug)]
pub struct Planes {
    first: Plane,
    second: Plane,
    /// What is said where nothing can be measured.
    nothing: Option<Status>,
    /// How many threads share a search.
    threads: usize,
}

impl Planes {
    /// Takes the light away from two frames.
    ///
    /// # Errors
    ///
    /// [`Refused`] where the frames are too large or unlike, or have the wrong number of pels.
    pub fn of(first: &Frame<'_>, second: &Frame<'_>) -> Result<Self, Refused> {
        Self::between(&Detail::of(first)?, &Detail::of(second)?)
    }

    /// The same of frames without their light: in a clip that is taken away once from each.
    ///
    /// # Errors
    ///
    /// [`Refused::Unlike`] where they have different sides.
    pub fn between(first: &Detail, second: &Detail) -> Result<Self, Refused> {
        if (first.width, first.height) != (second.width, second.height) {
            return Err(Refused::Unlike);
        }
        let nothing = if belt::sample_count(first.width, first.height) == 0 {
            Some(Status::NoBlocks)
        } else {
            (first.is_flat || second.is_flat).then_some(Status::Flat)
        };
        let (first, second) = normalise::planes(first, second);
        Ok(Self { first, second, nothing, threads: 1 })
    }

    /// The same, whose searches so many threads share; the answers stay as they are.
    #[must_use]
    pub fn shared_by(self, threads: usize) -> Self {
        Self { threads, ..self }
    }

    /// The pels of the first, for whoever searches them: at most 8,191 each.
    pub fn first(&self) -> &[u16] {
        &self.first.pels
    }

    /// The pels of the second.
    pub fn second(&self) -> &[u16] {
        &self.second.pels
    }

    /// Measures the motion from the first to the second. `words` are those of [`belt::collect_motion_samples`] on
    /// these planes, where they were searched already: they aren't searched again.
    ///
    /// # Errors
    ///
    /// [`Refused`] where a list has the wrong length.
    pub fn measure(&self, words: Option<&[u32]>, options: &Options<'_>) -> Result<Answer, Refused> {
        let wanted = self.first.blocks();
        if let Some(given) = options.mask.map(<[bool]>::len).filter(|given| *given != wanted) {
            return Err(Refused::Mask { given, wanted });
        }
        if let Some(given) = words.map(<[u32]>::len).filter(|given| *given != wanted) {
            return Err(Refused::Words { given, wanted });
        }
        let all_out = options.mask.is_some_and(|mask| mask.iter().all(|out| *out));
        if let Some(status) = self.nothing.or(all_out.then_some(Status::NoBlocks)) {
            return Ok(Answer::nothing(status, wanted));
        }
        let kept: Vec<bool> = options.mask.map_or(vec![true; wanted], |mask| mask.iter().map(|out| !out).collect());
        let pair = Pair { first: &self.first, second: &self.second, kept: &kept };
        let mut search = Search::new(wanted, words, self.threads);
        let full = Attempt::of(pair, !options.fast, &mut search)?;
        let reached = if full.is_trusted() || options.fast { None } else { coarser(pair, &full, &mut search)? };
        Ok(Answer::of(full, reached, self.first.width, self.first.height, search.spent()))
    }
}
