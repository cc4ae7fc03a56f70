//! Motion finer than the search's eighths: how far each block that agrees still is from where the model puts it, by its
//! slopes, and the library's fits over these places.

use crate::left;
use crate::model::{Model, ROTZOOM, TRANSLATION, TYPES};
use crate::plane::Pair;
use crate::refit::price;
use crate::texture::slopes;
use belt::{BLOCK_SIDE, Motion, MotionSample, Sample};

/// A block that is further off than this isn't believed, in pels.
const MOST_STEP: f64 = 0.5;
/// Blocks further off than so many medians count as far as any.
const MEDIANS: f64 = 2.5;
/// That distance is held to this many pels.
const LEAST_WITHIN: f64 = 0.05;

/// A model by the pels of its blocks, and what these say.
pub(crate) struct Polished {
    pub(crate) model: Model,
    pub(crate) samples: Vec<MotionSample>,
}

/// The motion that the pels of the agreeing blocks say, of the type that explains them best. The model itself where they
/// say none.
pub(crate) fn polished(pair: Pair<'_>, agreeing: &[u32], model: &Model) -> Polished {
    let samples: Vec<MotionSample> = agreeing.iter().filter_map(|&word| sample(pair, word, model)).collect();
    let fits: Vec<Model> = TYPES.iter().filter_map(|&gm_type| fit(gm_type, &samples)).collect();
    let distances: Vec<Vec<f64>> = fits.iter().map(|fit| distances(fit, &samples)).collect();
    let median = distances.iter().filter_map(|distances| median(distances)).min_by(f64::total_cmp);
    let within = (MEDIANS * median.unwrap_or(0.0)).clamp(LEAST_WITHIN, MOST_STEP);
    let priced = fits.iter().zip(&distances).map(|(fit, distances)| {
        let squares = distances.iter().map(|distance| (distance * distance) as f32);
        (price(squares, samples.len(), fit.parameters(), within as f32), *fit)
    });
    let best = priced.min_by(|(one, _), (other, _)| one.total_cmp(other));
    Polished { model: best.map_or(*model, |(_, fit)| fit), samples }
}

/// The library's fit of a type over samples.
fn fit(gm_type: u8, samples: &[MotionSample]) -> Option<Model> {
    let fitted = match gm_type {
        TRANSLATION => belt::fit_translation_samples(samples),
        ROTZOOM => belt::fit_rotzoom_samples(samples),
        _ => belt::fit_affine_samples(samples),
    };
    Model::of_fitted(&fitted.ok()?)
}

fn distances(model: &Model, samples: &[MotionSample]) -> Vec<f64> {
    let distance = |sample: &MotionSample| {
        let Motion { u, v } = model.motion_at(sample.x, sample.y);
        (u - sample.u).hypot(v - sample.v)
    };
    samples.iter().map(distance).collect()
}

fn median(distances: &[f64]) -> Option<f64> {
    let mut sorted = distances.to_vec();
    let middle = sorted.len() / 2;
    (!sorted.is_empty()).then(|| *sorted.select_nth_unstable_by(middle, f64::total_cmp).1)
}

/// Where the pels of a block say that it is.
fn sample(pair: Pair<'_>, word: u32, model: &Model) -> Option<MotionSample> {
    let Sample { row, column, x, y, .. } = Sample::of_word(word);
    let Motion { u, v } = model.motion_at(x, y);
    let (du, dv) = step(pair, column as usize * BLOCK_SIDE, row as usize * BLOCK_SIDE, model);
    // false for a not-a-number
    (du.hypot(dv) <= MOST_STEP).then_some(MotionSample { x, y, u: u + du, v: v + dv })
}

/// How far a block still is from where the model puts it: one step of Gauss and Newton, brightness left out.
fn step(pair: Pair<'_>, x: usize, y: usize, model: &Model) -> (f64, f64) {
    // of twice the slopes and of the difference: the sums of each, and of products
    let [mut sx, mut sy, mut sd, mut xx, mut xy, mut yy, mut xd, mut yd] = [[0f32; BLOCK_SIDE]; 8];
    for row in y..y + BLOCK_SIDE {
        let [across, down] = slopes(pair.first, x, row);
        let moved = left::moved(pair.second, model, x, row);
        let own = &pair.first.row(row)[x..][..BLOCK_SIDE];
        for i in 0..BLOCK_SIDE {
            let (across, down, difference) = (across[i], down[i], (i32::from(own[i]) - moved[i]) as f32);
            sx[i] += across;
            sy[i] += down;
            sd[i] += difference;
            xx[i] += across * across;
            xy[i] += across * down;
            yy[i] += down * down;
            xd[i] += across * difference;
            yd[i] += down * difference;
        }
    }
    let sum = |lanes: [f32; BLOCK_SIDE]| f64::from(lanes.iter().sum::<f32>());
    let [sx, sy, xd, yd] = [sx, sy, xd, yd].map(|lanes| sum(lanes) / 2.0);
    let ([xx, xy, yy], sd) = ([xx, xy, yy].map(|lanes| sum(lanes) / 4.0), sum(sd));
    let count = (BLOCK_SIDE * BLOCK_SIDE) as f64;
    let (xx, xy, yy) = (xx - sx * sx / count, xy - sx * sy / count, yy - sy * sy / count);
    let (xd, yd) = (xd - sx * sd / count, yd - sy * sd / count);
    let determinant = xx * yy - xy * xy;
    ((xd * yy - yd * xy) / determinant, (yd * xx - xd * xy) / determinant)
}

#[cfg(test)]
mod tests {
    use super::*;
    use crate::plane::Plane;

    /// A smooth surface seen from a place on.
    fn plane(dx: f64, dy: f64) -> Plane {
        let pel = |i: usize| {
            let (x, y) = ((i % 96) as f64 + dx, (i / 96) as f64 + dy);
            (4096.0 + 500.0 * (x / 5.0).sin() * (y / 7.0).cos() + 400.0 * (y / 6.0 + x / 20.0).cos()).round() as u16
        };
        Plane { width: 96, height: 96, pels: (0..96 * 96).map(pel).collect() }
    }

    #[test]
    fn a_motion_between_eighths_is_found() {
        let (first, second) = (plane(0.0, 0.0), plane(-2.19, 1.06));
        let pair = Pair { first: &first, second: &second, kept: &[true; 36] };
        // the eighths that are nearest
        let words: Vec<u32> = (1..5)
            .flat_map(|row| (1..5).map(move |column| row << 26 | column << 20 | (223 - 8) << 11 | (223 + 18) << 2))
            .collect();
        let found = polished(pair, &words, &Model::translation(2.25, -1.0));
        assert_eq!((found.model.gm_type, found.samples.len()), (TRANSLATION, 16));
        assert!(found.model.apart(&Model::translation(2.19, -1.06), 96, 96) < 0.01, "{:?}", found.model);
    }

    #[test]
    fn blocks_without_texture_say_nothing() {
        let flat = Plane { width: 32, height: 32, pels: vec![4096; 1024] };
        let pair = Pair { first: &flat, second: &flat, kept: &[true; 4] };
        let model = Model::translation(1.0, 2.0);
        let found = polished(pair, &[223 << 11 | 223 << 2], &model);
        assert_eq!((found.model, found.samples.len()), (model, 0));
    }
}
