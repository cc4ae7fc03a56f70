//! One search of a pair and what its blocks say: the elected model where it will do, else a robust one that the blocks
//! vote for.

use crate::cloud::Cloud;
use crate::left;
use crate::model::{IDENTITY, Model};
use crate::plane::Pair;
use crate::polish::{Polished, polished};
use crate::refit::{self, Refitted};
use crate::search::Search;
use crate::texture;
use crate::votes::votes;
use crate::warning::Warning;
use belt::{Elected, Motion, Refusal, Sample};

/// An elected model is taken if this share of all blocks agrees.
const ELECTED_SHARE: f64 = 0.5;
/// And agrees within so many pels.
const ELECTED_WITHIN: f64 = 0.25;
/// A motion of so many pels lies at the end of the range.
const END_OF_RANGE: f64 = 27.0;
/// From this share of blocks on, those at the end of the range are many.
const MANY_AT_END: f64 = 0.05;
/// A rival is sought among blocks further than this from the winner, in pels.
const BEYOND: f32 = 1.5;
/// A rival is another motion if it is further than this from the winner, in pels.
const ANOTHER: f64 = 0.25;
/// A rival with more than this share of the winner's votes is one too many.
const RIVAL_SHARE: f64 = 0.5;
/// So many blocks must agree.
const ENOUGH: usize = 24;
/// Fewer will do where they are this share of all.
const NEARLY_ALL: f64 = 0.75;
/// But no fewer than this.
const ENOUGH_OF_SMALL: usize = 8;
/// The way back isn't asked where so many agree.
const OVERWHELMING: usize = 64;
/// And this share of the usable ones.
const OVERWHELMING_SHARE: f64 = 0.75;
/// This share of the usable blocks must agree.
const ENOUGH_SHARE: f64 = 0.3;
/// The most error to be expected, in pels.
const MOST_ERROR: f64 = 0.1;

/// What a search found.
#[derive(Clone, Debug)]
pub(crate) struct Found {
    /// All words of the search.
    pub(crate) words: Vec<u32>,
    /// What the library elects among those that count.
    pub(crate) elected: Elected,
    /// Whether the model is the elected one.
    pub(crate) is_elected: bool,
    /// The words of the blocks that can tell their motion.
    pub(crate) usable: Cloud,
    /// The model, and within how many pels blocks agree with it.
    pub(crate) fit: Refitted,
    /// How many blocks the picture has, but for the mask's.
    whole: usize,
    /// How many usable blocks agree.
    pub(crate) agree: usize,
    /// The error to be expected, in pels.
    pub(crate) predicted: f64,
    /// Whether another motion explains nearly as much.
    two_motions: bool,
}

/// Whether a word's motion lies at the end of the range.
fn is_at_end(word: u32) -> bool {
    let Motion { u, v } = Sample::of_word(word).motion;
    u.abs().max(v.abs()) >= END_OF_RANGE
}

/// Whether many of the words' motions lie at the end of the range.
pub(crate) fn many_at_end(words: &[u32]) -> bool {
    let at_end = words.iter().filter(|&&word| is_at_end(word)).count();
    at_end > 0 && at_end as f64 >= MANY_AT_END * words.len() as f64
}

impl Found {
    /// Searches a pair and finds its motion. Where other models are known, the blocks vote on them too.
    pub(crate) fn of(pair: Pair<'_>, others: &[Model], search: &mut Search) -> Result<Self, Refusal> {
        let words = search.words(pair)?;
        let counted: Vec<u32> = words.iter().zip(pair.kept).filter(|(_, kept)| **kept).map(|(&word, _)| word).collect();
        let elected = belt::elect(1, &counted)?;
        let usable: Cloud = texture::usable(pair, &words).into_iter().map(|block| words[block]).collect();
        let taken = if others.is_empty() { taken(&elected, &counted, &usable) } else { None };
        let is_elected = taken.is_some();
        let (fit, two_motions) = taken.map_or_else(|| voted(pair, &usable, others), |fit| (fit, false));
        let mut agreeing = Vec::new();
        usable.within(&fit.model, fit.within, &mut agreeing);
        let Polished { model, samples } = polished(pair, &agreeing, &fit.model);
        let fit = Refitted { model, ..fit };
        let agree = usable.agreeing(&model, fit.within);
        let predicted = refit::predicted(&samples, &model, pair.first.width, pair.first.height);
        let whole = if others.is_empty() { counted.len() } else { words.len() };
        Ok(Self { words, elected, is_elected, usable, fit, whole, agree, predicted, two_motions })
    }

    /// Why it isn't to be trusted. An elected model was judged by all blocks already.
    pub(crate) fn warnings(&self) -> Vec<Warning> {
        let judged = [
            (Warning::FewBlocks, !self.enough_blocks()),
            (Warning::FewAgree, !self.enough_agree()),
            (Warning::IllPlaced, self.predicted.is_nan() || self.predicted > MOST_ERROR),
            (Warning::TwoMotions, self.two_motions),
            (Warning::EndOfRange, many_at_end(&self.usable.words)),
        ];
        judged.into_iter().filter(|(_, holds)| *holds && !self.is_elected).map(|(warning, _)| warning).collect()
    }

    /// Whether enough blocks agree: of a small picture, nearly all.
    fn enough_blocks(&self) -> bool {
        let nearly_all = self.agree as f64 >= NEARLY_ALL * self.whole as f64;
        self.agree >= if nearly_all { ENOUGH_OF_SMALL } else { ENOUGH }
    }

    /// Whether so many agree that there is no need to ask the way back.
    pub(crate) fn is_overwhelming(&self) -> bool {
        let share = self.agree as f64 / self.usable.len().max(1) as f64;
        self.agree >= OVERWHELMING && share >= OVERWHELMING_SHARE
    }

    /// Whether a large enough share of the usable blocks agrees.
    pub(crate) fn enough_agree(&self) -> bool {
        self.agree as f64 >= ENOUGH_SHARE * self.usable.len() as f64
    }
}

/// The elected model before the grid, if it will do. An elected identity won't: it may hide a creep.
fn taken(elected: &Elected, counted: &[u32], usable: &Cloud) -> Option<Refitted> {
    let gm_type = elected.gm_type;
    let agreeing = elected.model.x_first(gm_type).agreeing(counted, ELECTED_WITHIN);
    if gm_type == IDENTITY || (agreeing as f64) < ELECTED_SHARE * counted.len() as f64 || many_at_end(counted) {
        return None;
    }
    let model = Model::of_fitted(&belt::fit_trimmed(gm_type, counted).ok()?.fitted)?;
    Some(refit::again(usable, model))
}

/// The model that the usable blocks fit and all blocks vote for, and whether another one is nearly as good.
pub(crate) fn voted(pair: Pair<'_>, usable: &Cloud, others: &[Model]) -> (Refitted, bool) {
    let Some(found) = refit::robust(usable) else {
        return (Refitted { model: Model::IDENTITY, within: refit::LEAST_WITHIN }, false);
    };
    let rival = refit::robust(&usable.beyond(&found.model, BEYOND)).map(|rival| rival.model);
    let (width, height) = (pair.first.width, pair.first.height);
    let another = |one: &Model, other: &Model| one.apart(other, width, height) > ANOTHER;
    let candidates = [found.model].into_iter().chain(rival).chain([Model::IDENTITY]).chain(others.iter().copied());
    let mut candidates: Vec<(Model, Vec<f32>)> =
        candidates.map(|model| (model, left::by_model(pair, &model))).collect();
    for next in 1..candidates.len() {
        let counted = votes(&candidates[0].1, &candidates[next].1);
        if counted.other > counted.one {
            candidates.swap(0, next);
        }
    }
    let (winner, rivals) = (&candidates[0], &candidates[1..]);
    let nearly = |(model, left): &(Model, Vec<f32>)| {
        let counted = votes(&winner.1, left);
        let (own, other) = nearer(usable, &winner.0, model, found.within);
        another(&winner.0, model) && (counted.other as f64 > RIVAL_SHARE * counted.one as f64 || other > own)
    };
    let two_motions = rivals.iter().any(nearly);
    let fit = if winner.0 == found.model { found } else { refit::near(usable, winner.0, found.within) };
    (fit, two_motions)
}

/// How many blocks agree with the one of two models and lie nearer to it, and how many with the other.
fn nearer(usable: &Cloud, one: &Model, other: &Model, within: f32) -> (usize, usize) {
    let cap = within * within;
    let mut count = (0, 0);
    for (one, other) in usable.squares(one).zip(usable.squares(other)) {
        count.0 += usize::from(one <= cap && one < other);
        count.1 += usize::from(other <= cap && other < one);
    }
    count
}
