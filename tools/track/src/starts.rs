//! Starts for the fits: models through a few blocks drawn by a fixed generator, the best of each kind.

use crate::cloud::Cloud;
use crate::model::{AFFINE, Model};

/// So many draws.
const DRAWS: usize = 400;
/// Two blocks of a draw lie at least so many pels apart.
const LEAST_APART: f64 = 48.0;
/// Three blocks of a draw span at least so many square pels, twice their triangle.
const LEAST_SPAN: f64 = LEAST_APART * LEAST_APART;
/// A linear part so far from none isn't believed: blocks no longer match.
const STEEP: f64 = 0.14;
/// A block further off than this many pels costs as much as any.
const REACH: f32 = 0.75;
/// A draw is judged by about so many blocks.
const JUDGES: usize = 600;
/// Sums are made in so many lanes.
const LANES: usize = 8;

/// The practice belt's generator (docs/RULES.md, 'Practice belt').
struct Generator(u32);

impl Generator {
    /// A number below `count`, which is at most 65,536.
    fn below(&mut self, count: usize) -> usize {
        self.0 = self.0.wrapping_mul(1_664_525).wrapping_add(1_013_904_223);
        ((self.0 >> 16) as usize * count) >> 16
    }
}

/// The best model so far, and its cost.
#[derive(Clone, Copy)]
struct Best {
    model: Option<Model>,
    cost: f32,
}

impl Best {
    const NONE: Self = Self { model: None, cost: f32::INFINITY };

    fn offer(&mut self, model: Model, judges: &mut Judges) {
        let cost = judges.cost(&model);
        if cost < self.cost {
            *self = Self { model: Some(model), cost };
        }
    }
}

/// Two starts at most: the best rotation-zoom or translation, and the best affine map.
pub(crate) fn starts(cloud: &Cloud) -> Vec<Model> {
    let mut judges = Judges { cloud: cloud.thinned(JUDGES), squares: Vec::new() };
    let mut generator = Generator(1);
    let (mut plain, mut affine) = (Best::NONE, Best::NONE);
    for _ in 0..if cloud.len() == 0 { 0 } else { DRAWS } {
        let drawn = [0; 3].map(|_| generator.below(cloud.len()));
        let [first, second, third] = drawn.map(|i| [cloud.x[i], cloud.y[i], cloud.u[i], cloud.v[i]].map(f64::from));
        let Some(rotzoom) = through_two(first, second) else {
            plain.offer(Model::translation(first[2], first[3]), &mut judges);
            continue;
        };
        plain.offer(rotzoom, &mut judges);
        if let Some(model) = through_three(first, second, third) {
            affine.offer(model, &mut judges);
        }
    }
    [plain, affine].into_iter().filter_map(|best| best.model).collect()
}

/// The blocks that draws are judged by, and room for their squares.
struct Judges {
    cloud: Cloud,
    squares: Vec<f32>,
}

impl Judges {
    /// The sum of the capped squares, in lanes.
    fn cost(&mut self, model: &Model) -> f32 {
        self.squares.clear();
        self.squares.extend(self.cloud.squares(model).map(|square| square.min(REACH * REACH)));
        let mut lanes = [0f32; LANES];
        for squares in self.squares.chunks(LANES) {
            lanes.iter_mut().zip(squares).for_each(|(lane, square)| *lane += square);
        }
        lanes.iter().sum()
    }
}

/// The rotation-zoom through two samples x, y, u, v, where they lie apart and it isn't steep.
fn through_two(first: [f64; 4], second: [f64; 4]) -> Option<Model> {
    let [x, y, u, v]: [f64; 4] = std::array::from_fn(|i| second[i] - first[i]);
    let square = x * x + y * y;
    if square < LEAST_APART * LEAST_APART {
        return None;
    }
    let (zoom, turn) = ((x * u + y * v) / square, (y * u - x * v) / square);
    let (m0, m1) = (first[2] - zoom * first[0] - turn * first[1], first[3] + turn * first[0] - zoom * first[1]);
    Some(Model::rotzoom(m0, m1, 1.0 + zoom, turn)).filter(|model| model.linear() < STEEP)
}

/// The affine map through three samples, where they span enough and it isn't steep.
fn through_three(first: [f64; 4], second: [f64; 4], third: [f64; 4]) -> Option<Model> {
    let [x1, y1, u1, v1]: [f64; 4] = std::array::from_fn(|i| second[i] - first[i]);
    let [x2, y2, u2, v2]: [f64; 4] = std::array::from_fn(|i| third[i] - first[i]);
    let determinant = x1 * y2 - x2 * y1;
    if determinant.abs() < LEAST_SPAN {
        return None;
    }
    let slopes = |d1: f64, d2: f64| ((d1 * y2 - d2 * y1) / determinant, (x1 * d2 - x2 * d1) / determinant);
    let ((ux, uy), (vx, vy)) = (slopes(u1, u2), slopes(v1, v2));
    let (m0, m1) = (first[2] - ux * first[0] - uy * first[1], first[3] - vx * first[0] - vy * first[1]);
    Some(Model { gm_type: AFFINE, numbers: [m0, m1, 1.0 + ux, uy, vx, 1.0 + vy] })
        .filter(|model| model.linear() < STEEP)
}

#[cfg(test)]
mod tests {
    use super::*;

    const TRUTH: Model = Model { gm_type: AFFINE, numbers: [3.0, -2.0, 1.01, -0.02, 0.03, 0.98] };

    fn sample(model: &Model, x: f64, y: f64) -> [f64; 4] {
        let motion = model.motion_at(x, y);
        [x, y, motion.u, motion.v]
    }

    #[test]
    fn models_go_through_their_samples() {
        let [first, second, third] = [(7.5, 23.5), (103.5, 39.5), (55.5, 200.0)].map(|(x, y)| sample(&TRUTH, x, y));
        let model = through_three(first, second, third).unwrap();
        assert!(model.apart(&TRUTH, 640, 480) < 1e-9);
        let turned = Model::rotzoom(1.0, 2.0, 0.97, 0.05);
        let [first, second, near] = [(7.5, 23.5), (103.5, 39.5), (8.0, 24.0)].map(|(x, y)| sample(&turned, x, y));
        assert!(through_two(first, second).unwrap().apart(&turned, 640, 480) < 1e-9);
        assert!(through_two(first, near).is_none() && through_three(first, second, near).is_none());
        let steep = Model::rotzoom(0.0, 0.0, 1.2, 0.0);
        assert!(through_two(sample(&steep, 0.0, 0.0), sample(&steep, 99.0, 0.0)).is_none());
    }

    #[test]
    fn the_motion_of_most_is_found_among_others() {
        // 60 of 100 blocks turn, the rest go anywhere
        let words = (0..100u32).map(|i| {
            let (row, column) = (i / 10, i % 10);
            let (x, y) = (f64::from(column) * 16.0 + 7.5, f64::from(row) * 16.0 + 7.5);
            let motion = Model::rotzoom(4.0, -3.0, 1.02, 0.03).motion_at(x, y);
            let eighths = |pels: f64| ((pels * 8.0).round() + 223.0) as u32;
            let (u, v) = if i % 5 < 3 { (eighths(motion.u), eighths(motion.v)) } else { (i * 37 % 447, i * 91 % 447) };
            row << 26 | column << 20 | v << 11 | u << 2
        });
        let cloud: Cloud = words.collect();
        let found = starts(&cloud);
        assert_eq!(found.len(), 2);
        assert!(found.iter().all(|model| cloud.agreeing(model, 0.75) >= 55), "{found:?}");
        assert_eq!(starts(&Cloud::default()), []);
    }
}
