//! What a motion leaves of a block: the variance of the moved second frame less the first, bilinear between pels.

use crate::model::Model;
use crate::plane::{Pair, Plane};
use belt::{BLOCK_SIDE, MOST_EIGHTHS};

/// Every other row of a block is looked at.
const ROWS: usize = BLOCK_SIDE / 2;
/// The pels that are looked at.
const PELS: f32 = (BLOCK_SIDE * ROWS) as f32;
/// Bits of fraction of a place.
const FRACTION: u32 = 16;
/// Bits of a bilinear weight.
const WEIGHT: u32 = 8;
/// A whole weight.
const ONE: i32 = 1 << WEIGHT;
/// Half of two whole weights' product.
const HALF: i32 = ONE * ONE / 2;
/// Places are held to so many pels either way before they become whole numbers.
const FAR: f64 = 8192.0;
/// So are the numbers of a linear part, so that sixteen steps stay within 32 bits.
const STEEP: f64 = 64.0;

/// Sums over a block of differences and of their squares, in lanes.
#[derive(Default)]
struct Sums {
    plain: [i32; BLOCK_SIDE],
    square: [f32; BLOCK_SIDE],
}

impl Sums {
    /// Adds a row of the moved frame less one of the first.
    fn add(&mut self, moved: &[i32; BLOCK_SIDE], own: &[u16]) {
        for (i, &own) in own.iter().enumerate().take(BLOCK_SIDE) {
            let difference = moved[i] - i32::from(own);
            self.plain[i] += difference;
            self.square[i] += difference as f32 * difference as f32;
        }
    }

    fn variance(&self) -> f32 {
        let mean = self.plain.iter().sum::<i32>() as f32 / PELS;
        (self.square.iter().sum::<f32>() / PELS - mean * mean).max(0.0)
    }
}

/// What its own motion, a word's, leaves of a block.
pub(crate) fn by_word(pair: Pair<'_>, block: usize, word: u32) -> f32 {
    let eighths = |stored: u32| (stored & 511) as isize - MOST_EIGHTHS as isize;
    let weight = ONE as isize / 8;
    by_translation(pair, block, eighths(word >> 2) * weight, eighths(word >> 11) * weight)
}

/// What one motion leaves of a block, in parts of a pel that are whole weights.
fn by_translation(pair: Pair<'_>, block: usize, across: isize, down: isize) -> f32 {
    let (x, y) = pair.first.corner(block);
    let one = ONE as isize;
    let (left, top) = (x as isize + across.div_euclid(one), y as isize + down.div_euclid(one));
    let (fx, fy) = (across.rem_euclid(one) as i32, down.rem_euclid(one) as i32);
    let mut sums = Sums::default();
    for step in (0..BLOCK_SIDE).step_by(BLOCK_SIDE / ROWS) {
        let moved = at(pair.second, left, top + step as isize, fx, fy);
        sums.add(&moved, &pair.first.row(y + step)[x..][..BLOCK_SIDE]);
    }
    sums.variance()
}

/// The pels of a block's row, and the one behind it.
type Row = [u16; BLOCK_SIDE + 1];

/// What a plane shows from a place on, by the weights of what is right and below.
#[inline]
fn at(plane: &Plane, left: isize, top: isize, fx: i32, fy: i32) -> [i32; BLOCK_SIDE] {
    let [upper, lower] = [top, top + 1].map(|y| plane.row_near(y));
    match (inside(upper, left), inside(lower, left)) {
        (Some(upper), Some(lower)) => blended(upper, lower, fx, fy),
        _ => blended(&repeated(upper, left), &repeated(lower, left), fx, fy),
    }
}

/// The pels of a row from a place on, if it has as many.
fn inside(row: &[u16], left: isize) -> Option<&Row> {
    row.get(usize::try_from(left).ok()?..)?.first_chunk()
}

/// The pels of a row from a place on, edges repeated.
fn repeated(row: &[u16], left: isize) -> Row {
    let last = row.len() as isize - 1;
    std::array::from_fn(|i| row[(left + i as isize).clamp(0, last) as usize])
}

/// What a model leaves of each block that counts, 0 of the others.
pub(crate) fn by_model(pair: Pair<'_>, model: &Model) -> Vec<f32> {
    let one = |(block, &kept): (usize, &bool)| if kept { of_block(pair, model, block) } else { 0.0 };
    pair.kept.iter().enumerate().map(one).collect()
}

fn of_block(pair: Pair<'_>, model: &Model, block: usize) -> f32 {
    if model.linear() == 0.0 {
        let parts = |pels: f64| (pels.clamp(-FAR, FAR) * f64::from(ONE)).round() as isize;
        return by_translation(pair, block, parts(model.numbers[0]), parts(model.numbers[1]));
    }
    let (x, y) = pair.first.corner(block);
    let mut sums = Sums::default();
    for row in (y..y + BLOCK_SIDE).step_by(BLOCK_SIDE / ROWS) {
        sums.add(&moved(pair.second, model, x, row), &pair.first.row(row)[x..][..BLOCK_SIDE]);
    }
    sums.variance()
}

/// What a plane shows where a model takes the pels of a block's row.
pub(crate) fn moved(plane: &Plane, model: &Model, x: usize, y: usize) -> [i32; BLOCK_SIDE] {
    let [m0, m1, m2, m3, m4, m5] = model.numbers;
    let fixed = |place: f64| (place.clamp(-FAR, FAR) * f64::from(1 << FRACTION)) as i32;
    let (step_x, step_y) = (fixed(m2.clamp(-STEEP, STEEP)), fixed(m4.clamp(-STEEP, STEEP)));
    let (x, y) = (x as f64, y as f64);
    let (place_x, place_y) = (fixed(m2 * x + m3 * y + m0), fixed(m4 * x + m5 * y + m1));
    let place = |i: usize| (place_x + i as i32 * step_x, place_y + i as i32 * step_y);
    if (step_x, step_y) == (1 << FRACTION, 0) {
        let (left, top) = ((place_x >> FRACTION) as isize, (place_y >> FRACTION) as isize);
        return at(plane, left, top, fraction(place_x), fraction(place_y));
    }
    let (last_x, last_y) = place(BLOCK_SIDE - 1);
    let inside =
        |one: i32, other: i32, side: usize| one.min(other) >= 0 && (one.max(other) >> FRACTION) + 1 < side as i32;
    if inside(place_x, last_x, plane.width) && inside(place_y, last_y, plane.height) {
        return std::array::from_fn(|i| within(plane, place(i)));
    }
    std::array::from_fn(|i| between(plane, place(i)))
}

/// The weight of what lies behind a place.
fn fraction(place: i32) -> i32 {
    (place >> (FRACTION - WEIGHT)) & (ONE - 1)
}

/// Two rows between which values lie, by the weights of what is right and below. A pel has 13 bits: products of 16 bits
/// are made of the differences, which take the processor a fraction of those of 32.
#[inline]
fn blended(upper: &Row, lower: &Row, fx: i32, fy: i32) -> [i32; BLOCK_SIDE] {
    let product = |one: i16, other: i16| i32::from(one) * i32::from(other);
    // the product of both weights has 16 bits, one too many: halved, and its last bit
    let (half, odd) = ((fx * fy / 2) as i16, -((fx * fy % 2) as i16));
    let (fx, fy) = (fx as i16, fy as i16);
    let mut blended = [0; BLOCK_SIDE];
    for i in 0..BLOCK_SIDE {
        let (left, right, below, beyond) = (upper[i] as i16, upper[i + 1] as i16, lower[i] as i16, lower[i + 1] as i16);
        let (across, down) = (right - left, below - left);
        let both = beyond - below - across;
        let slopes = product(across, fx) + product(down, fy);
        let twist = 2 * product(both, half) + i32::from(both & odd);
        blended[i] = ((i32::from(left) << (2 * WEIGHT)) + (slopes << WEIGHT) + twist + HALF) >> (2 * WEIGHT);
    }
    blended
}

/// The value at a place that isn't near an edge.
fn within(plane: &Plane, (x, y): (i32, i32)) -> i32 {
    let (fx, fy) = (fraction(x), fraction(y));
    let corner = (y >> FRACTION) as usize * plane.width + (x >> FRACTION) as usize;
    let near = &plane.pels[corner..][..plane.width + 2];
    let across = |i: usize| i32::from(near[i]) * (ONE - fx) + i32::from(near[i + 1]) * fx;
    (across(0) * (ONE - fy) + across(plane.width) * fy + HALF) >> (2 * WEIGHT)
}

/// The value at a place, edges repeated.
fn between(plane: &Plane, (x, y): (i32, i32)) -> i32 {
    let (fx, fy) = (fraction(x), fraction(y));
    let inside = |place: i32, side: usize| place.clamp(0, side as i32 - 1) as usize;
    let (left, top) = (x >> FRACTION, y >> FRACTION);
    let (x0, x1) = (inside(left, plane.width), inside(left + 1, plane.width));
    let (y0, y1) = (inside(top, plane.height), inside(top + 1, plane.height));
    let across = |y: usize| {
        let row = plane.row(y);
        i32::from(row[x0]) * (ONE - fx) + i32::from(row[x1]) * fx
    };
    (across(y0) * (ONE - fy) + across(y1) * fy + HALF) >> (2 * WEIGHT)
}

#[cfg(test)]
mod tests {
    use super::*;

    /// A smooth surface seen from a place on.
    fn plane(dx: f64, dy: f64) -> Plane {
        let pel = |i: usize| {
            let (x, y) = ((i % 64) as f64 + dx, (i / 64) as f64 + dy);
            (4096.0 + 500.0 * (x / 5.0).sin() + 400.0 * (y / 6.0).cos()) as u16
        };
        Plane { width: 64, height: 48, pels: (0..64 * 48).map(pel).collect() }
    }

    #[test]
    fn the_true_motion_leaves_least() {
        let (first, second) = (plane(0.0, 0.0), plane(-2.25, 1.5));
        let pair = Pair { first: &first, second: &second, kept: &[true; 12] };
        let truth = by_model(pair, &Model::translation(2.25, -1.5));
        let other = by_model(pair, &Model::translation(1.75, -1.5));
        let word = (223 - 12) << 11 | (223 + 18) << 2;
        for block in [5, 6] {
            assert!(truth[block] < 16.0 && other[block] > 4.0 * truth[block], "{truth:?} {other:?}");
            let own = by_word(pair, block, word);
            assert!((own - truth[block]).abs() < 1.0, "{own} {}", truth[block]);
        }
    }

    #[test]
    fn a_row_is_its_values_one_by_one() {
        let plane = plane(0.3, 0.7);
        let models = [
            Model::translation(2.3, -1.7),
            Model::translation(-9.1, 40.0),
            Model { gm_type: 3, numbers: [1.5, -0.4, 1.02, -0.03, 0.05, 0.97] },
            Model { gm_type: 3, numbers: [-3.0, 4.0, 0.9, 0.2, -0.1, 1.1] },
        ];
        for model in models {
            let fixed = |place: f64| (place * 65536.0) as i32;
            let [m0, m1, m2, m3, m4, m5] = model.numbers;
            for (x, y) in [(0, 0), (16, 17), (32, 40), (48, 47)] {
                let (fx, fy) = (f64::from(x), f64::from(y));
                let (at_x, at_y) = (fixed(m2 * fx + m3 * fy + m0), fixed(m4 * fx + m5 * fy + m1));
                let one = |i: i32| between(&plane, (at_x + i * fixed(m2), at_y + i * fixed(m4)));
                let row = moved(&plane, &model, x as usize, y as usize);
                assert_eq!(row.to_vec(), (0..16).map(one).collect::<Vec<_>>(), "{model:?} at {x}, {y}");
            }
        }
    }

    #[test]
    fn models_far_outside_are_no_trouble() {
        let plane = plane(0.0, 0.0);
        let pair = Pair { first: &plane, second: &plane, kept: &[true; 12] };
        for number in [1e300, -1e300, 1e4, -70.0] {
            assert!(by_model(pair, &Model { gm_type: 3, numbers: [number; 6] }).iter().all(|left| left.is_finite()));
        }
        for word in [0, 446 << 11 | 446 << 2, 446 << 2] {
            assert!((0..12).all(|block| by_word(pair, block, word).is_finite()));
        }
    }
}
