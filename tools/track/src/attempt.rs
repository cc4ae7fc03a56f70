//! A motion and its way back; and coarser planes where the full size alone can't be trusted.

use crate::found::Found;
use crate::model::Model;
use crate::plane::{Halved, Pair, kept_moved};
use crate::search::Search;
use crate::warning::Warning;
use belt::{Motion, Refusal};

/// A motion and the motion back may differ by so many pels.
const UNDONE: f64 = 0.25;
/// Planes with a side below this aren't searched coarsely.
const LEAST_SIDE: usize = 64;
/// A coarse motion is followed if so many blocks agree.
const ENOUGH: usize = 8;
/// And if it is of so many pels of the full size.
const FAR: f64 = 8.0;

/// What was found in a pair, and why it isn't to be trusted.
#[derive(Clone, Debug)]
pub(crate) struct Attempt {
    pub(crate) found: Found,
    pub(crate) warnings: Vec<Warning>,
}

impl Attempt {
    /// Searches a pair, and unless it is warned and if it is asked for also the way back.
    pub(crate) fn of(pair: Pair<'_>, back: bool, search: &mut Search) -> Result<Self, Refusal> {
        Self::judged(Found::of(pair, &[], search)?, pair, back, search)
    }

    fn judged(found: Found, pair: Pair<'_>, back: bool, search: &mut Search) -> Result<Self, Refusal> {
        let mut warnings = found.warnings();
        if back && warnings.is_empty() && !found.is_overwhelming() {
            let back = Found::of(pair.exchanged(), &[], search)?;
            let both = found.fit.model.then(&back.fit.model);
            if both.rms(pair.first.width, pair.first.height) > UNDONE {
                warnings.push(Warning::NotUndone);
            }
        }
        Ok(Self { found, warnings })
    }

    /// Whether nothing is warned.
    pub(crate) fn is_trusted(&self) -> bool {
        self.warnings.is_empty()
    }
}

/// A trusted motion that took coarser planes.
#[derive(Clone, Debug)]
pub(crate) struct Reached {
    pub(crate) found: Found,
    /// The model at full size.
    pub(crate) model: Model,
    /// The error to be expected at full size, in pels.
    pub(crate) predicted: f64,
    /// Whether the second frame was moved; otherwise it is the half planes' own motion.
    pub(crate) is_shifted: bool,
}

/// Tries the half planes and the quarter planes of a pair whose full size isn't trusted.
pub(crate) fn coarser(pair: Pair<'_>, full: &Attempt, search: &mut Search) -> Result<Option<Reached>, Refusal> {
    let Some(half) = coarse(pair) else { return Ok(None) };
    let found = Found::of(half.pair(), &[], search)?;
    if let Some(reached) = shifted(pair, full, &found, found.fit.model.doubled(), search)? {
        return Ok(Some(reached));
    }
    let attempt = Attempt::judged(found, half.pair(), true, search)?;
    if attempt.is_trusted() && !full.warnings.contains(&Warning::TwoMotions) {
        let Attempt { found, .. } = attempt;
        let (model, predicted) = (found.fit.model.doubled(), 2.0 * found.predicted);
        return Ok(Some(Reached { found, model, predicted, is_shifted: false }));
    }
    let Some(quarter) = coarse(half.pair()) else { return Ok(None) };
    let found = Found::of(quarter.pair(), &[], search)?;
    shifted(pair, full, &found, found.fit.model.doubled().doubled(), search)
}

/// The pair halved, unless it becomes too small.
fn coarse(pair: Pair<'_>) -> Option<Halved> {
    (pair.first.width.min(pair.first.height) / 2 >= LEAST_SIDE).then(|| Halved::of(pair))
}

/// Moves the second frame by what coarse planes found, if that is far and enough of them agree, and measures the rest.
/// What the full size found, and no motion at all, stay in the vote.
fn shifted(
    pair: Pair<'_>,
    full: &Attempt,
    coarse: &Found,
    model: Model,
    search: &mut Search,
) -> Result<Option<Reached>, Refusal> {
    let (width, height) = (pair.first.width, pair.first.height);
    if coarse.agree < ENOUGH || !coarse.enough_agree() || model.rms(width, height) < FAR {
        return Ok(None);
    }
    let Motion { u, v } = model.middle(width, height);
    let (right, down) = (u.round(), v.round());
    let second = pair.second.moved(right as isize, down as isize);
    let kept = kept_moved(pair.kept, pair.first, right as isize, down as isize);
    let moved = Pair { second: &second, kept: &kept, ..pair };
    let others = [full.found.fit.model, Model::IDENTITY].map(|model| model.then(&Model::translation(-right, -down)));
    let found = Found::of(moved, &others, search)?;
    let Attempt { found, warnings } = Attempt::judged(found, moved, true, search)?;
    let model = found.fit.model.then(&Model::translation(right, down));
    let predicted = found.predicted;
    Ok(warnings.is_empty().then_some(Reached { found, model, predicted, is_shifted: true }))
}
