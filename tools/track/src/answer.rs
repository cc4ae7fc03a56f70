//! What is said of a pair.

use crate::attempt::{Attempt, Reached};
use crate::cloud::Cloud;
use crate::model::Model;
use crate::shares::{Shares, shares, standing};
use crate::warning::Warning;
use belt::{Elected, Motion, StoredModel};

/// A motion of at most so many pels is none.
const STILL: f64 = 1.0 / 16.0;
/// Nor is one of at most so many times the error to be expected.
const STILL_ERRORS: f64 = 2.0;

/// Where nothing can be measured, a block would agree within so many pels.
const WITHIN_OF_NOTHING: f64 = 0.25;

/// Whether a motion was measured.
#[derive(Clone, Copy, Debug, PartialEq, Eq, Hash)]
pub enum Status {
    /// It moved, and the model says how.
    Measured,
    /// It stood still: its motion, which the model says all the same, is too small to be told from none.
    Still,
    /// No model is to be trusted; the warnings say why.
    Unexplained,
    /// A frame has one value throughout.
    Flat,
    /// No whole 16×16 block lies in the frames, or the mask leaves none.
    NoBlocks,
}

impl Status {
    /// Its name for programs.
    pub fn name(self) -> &'static str {
        match self {
            Self::Measured => "measured",
            Self::Still => "still",
            Self::Unexplained => "unexplained",
            Self::Flat => "flat",
            Self::NoBlocks => "no-blocks",
        }
    }

    /// Whether the model is to be trusted.
    pub fn is_known(self) -> bool {
        matches!(self, Self::Measured | Self::Still)
    }
}

/// How a model was found.
#[derive(Clone, Copy, Debug, PartialEq, Eq, Hash)]
pub enum How {
    /// As the library elects, and half of all blocks agree; fitted again before the grid, over the blocks that agree, with
    /// the type that explains these best.
    Elected,
    /// As most of the blocks that can tell their motion say.
    Robust,
    /// As these say on planes of half the sides.
    HalfSize,
    /// After the second frame was moved by what coarser planes say.
    Shifted,
    /// A type that was named, fitted to all blocks.
    Plain,
    /// A type that was named, fitted without the blocks that lie far off.
    Trimmed,
}

impl How {
    /// Its name for programs.
    pub fn name(self) -> &'static str {
        match self {
            Self::Elected => "elected",
            Self::Robust => "robust",
            Self::HalfSize => "half-size",
            Self::Shifted => "shifted",
            Self::Plain => "plain",
            Self::Trimmed => "trimmed",
        }
    }
}

/// What was measured between two frames.
#[derive(Clone, Debug, PartialEq)]
pub struct Answer {
    /// Whether a motion was measured.
    pub status: Status,
    /// How the model was found; robust where nothing was.
    pub how: How,
    /// The motion from the first frame to the second, before the grid: of an unexplained pair a guess, and the identity
    /// of a flat one or one without blocks.
    pub model: Model,
    /// Its motion to the right in the middle of the picture, in pels.
    pub right: f64,
    /// Its motion down in the middle of the picture, in pels.
    pub down: f64,
    /// Its zoom, above 1 for a load that grew.
    pub zoom: f64,
    /// Its turn in degrees, clockwise.
    pub angle: f64,
    /// How many usable blocks agree with the model.
    pub agree: usize,
    /// A block agrees within so many pels.
    pub within: f64,
    /// How many blocks can tell their motion.
    pub usable: usize,
    /// How many blocks were searched: those of the half planes where the answer is theirs.
    pub blocks: usize,
    /// The mean square of the distance between the model and the usable blocks that agree, in square pels.
    pub score: f64,
    /// The error to be expected, as the root of its mean square over the picture, in pels.
    pub predicted: f64,
    /// Why the model isn't to be trusted; empty where it is.
    pub warnings: Vec<Warning>,
    /// How the blocks moved, whatever the model.
    pub shares: Shares,
    /// The share of the blocks that can tell their motion which stood still where the model moves by over half a pel.
    pub standing: f64,
    /// How many searches of the whole frame were made; one of half planes is a quarter.
    pub searches: f64,
    /// The words of the search at full size, one for each whole block: what [`belt::elect`] and drawings take.
    pub words: Vec<u32>,
    /// What the library elects among these words, but for the mask's: what a header would carry.
    pub elected: Elected,
}

impl Answer {
    /// The answer of frames in which nothing can be measured.
    pub(crate) fn nothing(status: Status, blocks: usize) -> Self {
        Self {
            status,
            how: How::Robust,
            model: Model::IDENTITY,
            right: 0.0,
            down: 0.0,
            zoom: 1.0,
            angle: 0.0,
            agree: 0,
            within: WITHIN_OF_NOTHING,
            usable: 0,
            blocks,
            score: 0.0,
            predicted: f64::INFINITY,
            warnings: Vec::new(),
            shares: Shares::NONE,
            standing: 0.0,
            searches: 0.0,
            words: Vec::new(),
            elected: Elected { gm_type: 0, model: StoredModel::IDENTITY, score: 0.0 },
        }
    }

    /// The answer of what was reached another way, or else of the full size with its warnings.
    pub(crate) fn of(full: Attempt, reached: Option<Reached>, width: usize, height: usize, searches: f64) -> Self {
        let Attempt { found: full, warnings } = full;
        let (shares, usable) = (shares(&full.usable), full.usable.clone());
        let (words, elected) = (full.words.clone(), full.elected);
        let plain = if full.is_elected { How::Elected } else { How::Robust };
        let (found, model, predicted, how, warnings) = match reached {
            Some(Reached { found, model, predicted, is_shifted }) => {
                (found, model, predicted, if is_shifted { How::Shifted } else { How::HalfSize }, Vec::new())
            }
            None => {
                let (model, predicted) = (full.fit.model, full.predicted);
                (full, model, predicted, plain, warnings)
            }
        };
        let status = match model.rms(width, height) {
            _ if !warnings.is_empty() => Status::Unexplained,
            motion if motion <= STILL.max(STILL_ERRORS * predicted) => Status::Still,
            _ => Status::Measured,
        };
        // of half planes a pel is two
        let pels = if how == How::HalfSize { 2.0 } else { 1.0 };
        Self {
            status,
            how,
            agree: found.agree,
            within: pels * f64::from(found.fit.within),
            usable: found.usable.len(),
            blocks: found.words.len(),
            score: pels * pels * score(&found.usable, &found.fit.model, found.fit.within),
            predicted,
            warnings,
            shares,
            standing: standing(&usable, &model),
            searches,
            words,
            elected,
            ..Self::nothing(status, 0)
        }
        .with_model(model, width, height)
    }

    /// The same answer with this model.
    pub(crate) fn with_model(self, model: Model, width: usize, height: usize) -> Self {
        let Motion { u, v } = model.middle(width, height);
        Self { model, right: u, down: v, zoom: model.zoom(), angle: model.degrees(), ..self }
    }
}

/// The mean square of the distances up to a limit; 0 for none.
fn score(usable: &Cloud, model: &Model, within: f32) -> f64 {
    let near = usable.squares(model).filter(|&square| square <= within * within);
    let (sum, count) = near.fold((0.0, 0), |(sum, count), square| (sum + f64::from(square), count + 1));
    sum / f64::from(count.max(1))
}
