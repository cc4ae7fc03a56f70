//! How the blocks moved, whatever model explains them: how many stood still, and what most of the others did.

use crate::cloud::Cloud;
use crate::model::Model;
use belt::{MOST_EIGHTHS, Motion};

/// A block stands still within so many pels.
const STILL: f32 = 0.25;
/// A model moves a block surely by more than so many pels.
const MOVES: f64 = 0.5;
/// Motions are gathered in cells of so many to a pel; the commonest are those of two cells by two.
const CELLS: usize = 2;
/// The cells across and down.
const SIDE: usize = 2 * (MOST_EIGHTHS as usize / 8 + 1) * CELLS + 1;

/// How the blocks that can tell their motion moved.
#[derive(Clone, Copy, Debug, PartialEq)]
pub struct Shares {
    /// The share of them that stood still, to within a quarter of a pel; 0 without blocks.
    pub still: f64,
    /// The commonest motion of the rest, where there is a rest.
    pub commonest: Option<Common>,
}

/// A motion that blocks share.
#[derive(Clone, Copy, Debug, PartialEq)]
pub struct Common {
    /// The mean motion of those blocks, in pels.
    pub motion: Motion,
    /// Their share of all blocks that can tell their motion.
    pub share: f64,
}

impl Shares {
    /// Of no blocks.
    pub const NONE: Self = Self { still: 0.0, commonest: None };
}

/// Counts blocks by their motion.
pub(crate) fn shares(usable: &Cloud) -> Shares {
    if usable.len() == 0 {
        return Shares::NONE;
    }
    let moved: Vec<(f32, f32)> =
        usable.u.iter().copied().zip(usable.v.iter().copied()).filter(|&(u, v)| u.hypot(v) > STILL).collect();
    let share = |count: usize| count as f64 / usable.len() as f64;
    let commonest = commonest(&moved).map(|(motion, count)| Common { motion, share: share(count) });
    Shares { still: share(usable.len() - moved.len()), commonest }
}

/// The share of blocks that stand still where a model moves.
pub(crate) fn standing(usable: &Cloud, model: &Model) -> f64 {
    let still = usable.u.iter().zip(&usable.v).map(|(u, v)| u.hypot(*v) <= STILL);
    let places = usable.x.iter().zip(&usable.y).map(|(x, y)| model.motion_at(f64::from(*x), f64::from(*y)));
    let against = still.zip(places).filter(|(still, Motion { u, v })| *still && u.hypot(*v) > MOVES).count();
    against as f64 / usable.len().max(1) as f64
}

/// The cell of a motion along one side.
fn cell(pels: f32) -> usize {
    ((pels * CELLS as f32).floor() as isize + SIDE as isize / 2).clamp(0, SIDE as isize - 2) as usize
}

/// The mean of the motions that lie closest together, and how many they are.
fn commonest(moved: &[(f32, f32)]) -> Option<(Motion, usize)> {
    let mut cells = vec![0u16; SIDE * SIDE];
    for &(u, v) in moved {
        cells[cell(v) * SIDE + cell(u)] += 1;
    }
    let four =
        |corner: usize| [0, 1, SIDE, SIDE + 1].map(|step| usize::from(cells[corner + step])).iter().sum::<usize>();
    let corners = (0..SIDE * (SIDE - 1) - 1).filter(|corner| corner % SIDE < SIDE - 1);
    // the first of those that are equally common
    let (corner, count) =
        corners.map(|corner| (corner, four(corner))).reduce(|best, next| if next.1 > best.1 { next } else { best })?;
    let inside = |&&(u, v): &&(f32, f32)| {
        let near = |cell: usize, from: usize| cell == from || cell == from + 1;
        near(cell(u), corner % SIDE) && near(cell(v), corner / SIDE)
    };
    let (u, v) =
        moved.iter().filter(inside).fold((0.0, 0.0), |sum, &(u, v)| (sum.0 + f64::from(u), sum.1 + f64::from(v)));
    (count > 0).then(|| (Motion { u: u / count as f64, v: v / count as f64 }, count))
}

#[cfg(test)]
mod tests {
    use super::*;

    fn cloud(eighths: &[(i32, i32)]) -> Cloud {
        eighths.iter().map(|(u, v)| ((223 + v) as u32) << 11 | ((223 + u) as u32) << 2).collect()
    }

    #[test]
    fn most_stood_still_and_the_rest_moved() {
        let mut motions = vec![(0, 0); 80];
        motions.extend([(-24, 8); 10]);
        motions.extend([(-25, 7); 5]);
        motions.extend([(100, 3), (-100, 90), (223, 223), (-223, -223), (1, 2)]);
        let Shares { still, commonest } = shares(&cloud(&motions));
        assert_eq!(still, 0.80);
        let Common { motion, share } = commonest.unwrap();
        assert_eq!(share, 0.15);
        assert!((motion.u - (-24.0 * 10.0 - 25.0 * 5.0) / 15.0 / 8.0).abs() < 1e-6, "{motion:?}");
    }

    #[test]
    fn blocks_stand_where_a_model_moves() {
        // three blocks of one row, of which the middle one stands
        let words = [(0u32, 16), (1, 0), (2, 16)].map(|(column, u)| column << 20 | 223 << 11 | (223 + u) << 2);
        let cloud: Cloud = words.into_iter().collect();
        assert_eq!(standing(&cloud, &Model::translation(2.0, 0.0)), 1.0 / 3.0);
        // a zoom that doesn't move the middle one
        assert_eq!(standing(&cloud, &Model::rotzoom(-2.35, -0.75, 1.1, 0.0)), 0.0);
        assert_eq!(standing(&cloud, &Model::IDENTITY) + standing(&Cloud::default(), &Model::IDENTITY), 0.0);
    }

    #[test]
    fn there_may_be_no_rest_and_no_blocks() {
        assert_eq!(shares(&cloud(&[(0, 0), (1, 1)])), Shares { still: 1.0, commonest: None });
        assert_eq!(shares(&cloud(&[])), Shares::NONE);
        let far = shares(&cloud(&[(223, 223), (223, 223)])).commonest.unwrap();
        assert_eq!((far.motion, far.share), (Motion { u: 27.875, v: 27.875 }, 1.0));
    }
}
