//! Fits of the library over the blocks near a start, the choice among the types, and what error to expect.

use crate::cloud::Cloud;
use crate::model::{AFFINE, Model, ROTZOOM, TRANSLATION, TYPES};
use crate::starts::starts;
use belt::MotionSample;

/// The blocks within so many pels are fitted, in turn.
const NEARING: [f32; 5] = [1.5, 1.5, 1.0, 1.0, 0.75];
/// Distances of blocks up to here say how far the blocks scatter, in pels.
const SCATTER: f32 = 1.5;
/// A block agrees within so many times the median distance.
const MEDIANS: f32 = 2.5;
/// That distance is held to this many pels.
pub(crate) const LEAST_WITHIN: f32 = 0.5;
/// And to this many.
const MOST_WITHIN: f32 = 1.25;
/// The last fits, over the blocks that agree.
const LAST_FITS: usize = 4;
/// A fit over fewer blocks is no better than what it began with.
const LEAST_TO_FIT_AGAIN: usize = 12;
/// How much of a capped square a parameter is weighed against.
const PRICE: f32 = 0.08;
/// The variance of a motion that is rounded to eighths, in square pels.
const ROUNDING: f64 = 1.0 / (8.0 * 8.0 * 12.0);

/// A model, and the distance in pels within which blocks agree with it.
#[derive(Clone, Copy, Debug, PartialEq)]
pub(crate) struct Refitted {
    pub(crate) model: Model,
    pub(crate) within: f32,
}

/// The library's plain fit of a type.
pub(crate) fn fit(gm_type: u8, words: &[u32]) -> Option<Model> {
    let fitted = match gm_type {
        TRANSLATION => belt::fit_translation(words),
        ROTZOOM => belt::fit_rotzoom(words),
        _ => belt::fit_affine(words),
    };
    Model::of_fitted(&fitted.ok()?)
}

/// Fits of a type over the blocks within the distances of the model before, in turn.
fn nearing(cloud: &Cloud, start: Model, gm_type: u8, distances: &[f32]) -> Option<Model> {
    let (mut model, mut words, mut before) = (start, Vec::new(), Vec::new());
    for (turn, &distance) in distances.iter().enumerate() {
        std::mem::swap(&mut words, &mut before);
        cloud.within(&model, distance, &mut words);
        if turn == 0 || words != before {
            model = fit(gm_type, &words)?;
        }
    }
    Some(model)
}

/// The motion that most of the blocks share: the best of all starts and types.
pub(crate) fn robust(cloud: &Cloud) -> Option<Refitted> {
    chosen(cloud, &starts(cloud))
}

/// The best fit of any type near a model that won the votes; the model itself if it stays nearer to its blocks.
pub(crate) fn near(cloud: &Cloud, model: Model, within: f32) -> Refitted {
    let fits = TYPES.into_iter().filter_map(|gm_type| nearing(cloud, model, gm_type, &[within; LAST_FITS]));
    Refitted { model: cheapest(cloud, fits.chain([model]), within).unwrap_or(model), within }
}

/// A model of known type fitted again over the usable blocks that agree; itself if these are too few.
pub(crate) fn again(cloud: &Cloud, model: Model) -> Refitted {
    let fitted = nearing(cloud, model, model.gm_type, &[LEAST_WITHIN; LAST_FITS]);
    let enough = |fitted: &Model| cloud.agreeing(fitted, LEAST_WITHIN) >= LEAST_TO_FIT_AGAIN;
    Refitted { model: fitted.filter(enough).unwrap_or(model), within: LEAST_WITHIN }
}

/// The best fit from given starts, of any type.
fn chosen(cloud: &Cloud, starts: &[Model]) -> Option<Refitted> {
    let fits = starts.iter().flat_map(|&start| TYPES.map(|gm_type| nearing(cloud, start, gm_type, &NEARING)));
    let fits: Vec<Model> = fits.flatten().collect();
    let scatter = fits.iter().filter_map(|model| scatter(cloud, model)).min_by(f32::total_cmp)?;
    let within = (MEDIANS * scatter).clamp(LEAST_WITHIN, MOST_WITHIN);
    let last = fits.iter().filter_map(|&model| nearing(cloud, model, model.gm_type, &[within; LAST_FITS]));
    Some(Refitted { model: cheapest(cloud, last, within)?, within })
}

/// The median distance of the blocks that aren't far off.
fn scatter(cloud: &Cloud, model: &Model) -> Option<f32> {
    let mut squares: Vec<f32> = cloud.squares(model).filter(|&square| square <= SCATTER * SCATTER).collect();
    let middle = squares.len() / 2;
    (!squares.is_empty()).then(|| squares.select_nth_unstable_by(middle, f32::total_cmp).1.sqrt())
}

/// What a model leaves of the blocks, by the squares of their distances, and what its parameters cost.
pub(crate) fn price(squares: impl Iterator<Item = f32>, count: usize, parameters: usize, within: f32) -> f32 {
    let cap = within * within;
    let left: f32 = squares.map(|square| square.min(cap)).sum();
    left / (PRICE * cap) + parameters as f32 * (2.0 * count as f32).ln()
}

/// The cheapest of the models.
fn cheapest(cloud: &Cloud, models: impl Iterator<Item = Model>, within: f32) -> Option<Model> {
    let priced = models.map(|model| (price(cloud.squares(&model), cloud.len(), model.parameters(), within), model));
    priced.min_by(|(one, _), (other, _)| one.total_cmp(other)).map(|(_, model)| model)
}

/// The error to be expected of a fit over these samples, as the root of its mean square over the picture, in pels: from
/// where the blocks lie and how they scatter.
pub(crate) fn predicted(samples: &[MotionSample], model: &Model, width: usize, height: usize) -> f64 {
    let count = samples.len() as f64;
    let free = 2.0 * count - model.parameters() as f64;
    if free <= 0.0 {
        return f64::INFINITY;
    }
    let off = |sample: &MotionSample| {
        let own = model.motion_at(sample.x, sample.y);
        (own.u - sample.u) * (own.u - sample.u) + (own.v - sample.v) * (own.v - sample.v)
    };
    let variance = samples.iter().map(off).sum::<f64>() / free + ROUNDING;
    (2.0 * variance * (1.0 / count + leverage(samples, model, width, height))).sqrt()
}

/// How much the linear part's errors weigh over the picture, for a variance of one.
fn leverage(samples: &[MotionSample], model: &Model, width: usize, height: usize) -> f64 {
    let count = samples.len() as f64;
    let (x, y) = (samples.iter().map(|s| s.x).sum::<f64>() / count, samples.iter().map(|s| s.y).sum::<f64>() / count);
    let sum = |of: &dyn Fn(f64, f64) -> f64| samples.iter().map(|s| of(s.x - x, s.y - y)).sum::<f64>();
    let (xx, xy, yy) = (sum(&|x, _| x * x), sum(&|x, y| x * y), sum(&|_, y| y * y));
    // the picture's mean squares about the blocks' middle
    let (to_x, to_y) = ((width as f64 - 1.0) / 2.0 - x, (height as f64 - 1.0) / 2.0 - y);
    let spread = |side: usize| (side as f64 * side as f64 - 1.0) / 12.0;
    let (pxx, pxy, pyy) = (spread(width) + to_x * to_x, to_x * to_y, spread(height) + to_y * to_y);
    match model.gm_type {
        ROTZOOM => (pxx + pyy) / (xx + yy),
        AFFINE => (pxx * yy - 2.0 * pxy * xy + pyy * xx) / (xx * yy - xy * xy),
        _ => 0.0,
    }
}

#[cfg(test)]
mod tests {
    use super::*;

    /// The words of a model on a grid of blocks, some of them lost.
    fn words(model: &Model, lost: impl Fn(u32) -> bool) -> Vec<u32> {
        let word = |i: u32| {
            let (row, column) = (i / 20, i % 20);
            let motion = model.motion_at(f64::from(column) * 16.0 + 7.5, f64::from(row) * 16.0 + 7.5);
            let eighths = |pels: f64| ((pels * 8.0).round() + 223.0) as u32;
            let (u, v) = if lost(i) { (i * 37 % 447, i * 91 % 447) } else { (eighths(motion.u), eighths(motion.v)) };
            row << 26 | column << 20 | v << 11 | u << 2
        };
        (0..300).map(word).collect()
    }

    #[test]
    fn each_type_is_found_and_no_higher_one() {
        let affine = Model { gm_type: AFFINE, numbers: [3.0, -2.0, 1.01, -0.02, 0.03, 0.98] };
        for truth in [Model::translation(5.25, -3.375), Model::rotzoom(4.0, -3.0, 1.02, 0.03), affine] {
            let cloud: Cloud = words(&truth, |i| i % 5 > 2).into_iter().collect();
            let found = robust(&cloud).unwrap();
            assert_eq!(found.model.gm_type, truth.gm_type);
            assert!(found.model.apart(&truth, 320, 240) < 0.05, "{found:?}");
            assert!(cloud.agreeing(&found.model, found.within) >= 180);
        }
    }

    #[test]
    fn nothing_is_found_in_nothing() {
        assert_eq!(robust(&Cloud::default()), None);
        let one: Cloud = [223 << 11 | 223 << 2].into_iter().collect();
        assert_eq!(robust(&one).map(|found| found.model), Some(Model::translation(0.0, 0.0)));
    }

    #[test]
    fn a_fit_of_blocks_in_a_corner_is_expected_to_err() {
        let truth = Model { gm_type: AFFINE, numbers: [3.0, -2.0, 1.01, -0.02, 0.03, 0.98] };
        let all = words(&truth, |_| false);
        let corner: Vec<u32> = all.iter().copied().filter(|word| word >> 26 < 5 && (word >> 20 & 63) < 5).collect();
        let row: Vec<u32> = all.iter().copied().filter(|word| word >> 26 == 3).collect();
        let expected = |words: &[u32], model: &Model| {
            let samples: Vec<MotionSample> = words.iter().map(|&word| MotionSample::of_word(word)).collect();
            predicted(&samples, model, 320, 240)
        };
        let [few, many, line] = [&corner, &all, &row].map(|words| expected(words, &truth));
        assert!(many < 0.01 && few > 0.03 && (line > 1.0 || line.is_nan()), "{many} {few} {line}");
        assert_eq!(expected(&all[..2], &truth), f64::INFINITY);
        let still = Model::translation(0.0, 0.0);
        assert!(expected(&words(&still, |_| false), &still) < 0.01);
    }
}
