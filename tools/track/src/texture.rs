//! Which blocks can tell their motion: those with texture in every direction, for what their motion leaves of them.

use crate::left;
use crate::plane::{Pair, Plane};
use belt::BLOCK_SIDE;

/// What rounding and smoothing alone leave, in square values.
pub(crate) const GROUND: f32 = 16.0;
/// A usable block's motion is expected to err by no more, in pels.
const MOST_ERROR: f32 = 0.35;
/// A usable block has at least this share of the texture that the frame's best blocks have.
const LEAST_SHARE: f32 = 0.02;
/// The best blocks begin here, of 1.
const BEST: f64 = 0.95;
/// The pels of a block.
const PELS: f32 = (BLOCK_SIDE * BLOCK_SIDE) as f32;

/// The blocks that can tell their motion, in their order.
pub(crate) fn usable(pair: Pair<'_>, words: &[u32]) -> Vec<usize> {
    let kept: Vec<usize> = (0..words.len()).filter(|&block| pair.kept[block]).collect();
    let texture: Vec<f32> = kept.iter().map(|&block| weaker(pair.first, block)).collect();
    let least = LEAST_SHARE * best(&texture);
    let tells = |&(&block, &texture): &(&usize, &f32)| {
        texture >= least && texture > 0.0 && error(texture, left::by_word(pair, block, words[block])) <= MOST_ERROR
    };
    kept.iter().zip(&texture).filter(tells).map(|(&block, _)| block).collect()
}

/// The error to be expected of a motion, in pels: infinite where what is left drowns the texture.
fn error(texture: f32, left: f32) -> f32 {
    let noise = GROUND + left;
    let slope = texture - noise / 4.0;
    if slope > 0.0 { (noise / (PELS * slope)).sqrt() } else { f32::INFINITY }
}

/// The texture where the best blocks begin; 0 for none.
fn best(texture: &[f32]) -> f32 {
    let mut sorted = texture.to_vec();
    let place = (sorted.len().saturating_sub(1) as f64 * BEST) as usize;
    if sorted.is_empty() { 0.0 } else { *sorted.select_nth_unstable_by(place, f32::total_cmp).1 }
}

/// Twice the slopes of a plane over a row of a block, across and down: central differences, edges repeated.
#[inline]
pub(crate) fn slopes(plane: &Plane, x: usize, y: usize) -> [[f32; BLOCK_SIDE]; 2] {
    let own = plane.row(y);
    let (above, below) = (plane.row_near(y as isize - 1), plane.row_near(y as isize + 1));
    let (above, below) = (&above[x..][..BLOCK_SIDE], &below[x..][..BLOCK_SIDE]);
    let mut near = [0; BLOCK_SIDE + 2];
    near[0] = own[x.saturating_sub(1)];
    near[1..=BLOCK_SIDE].copy_from_slice(&own[x..][..BLOCK_SIDE]);
    near[BLOCK_SIDE + 1] = own[(x + BLOCK_SIDE).min(own.len() - 1)];
    let [mut across, mut down] = [[0.0; BLOCK_SIDE]; 2];
    for i in 0..BLOCK_SIDE {
        // pels have 13 bits
        across[i] = f32::from(near[i + 2] as i16 - near[i] as i16);
        down[i] = f32::from(below[i] as i16 - above[i] as i16);
    }
    [across, down]
}

/// The texture of a block in its weaker direction: the smaller eigenvalue of the mean gradient tensor.
fn weaker(plane: &Plane, block: usize) -> f32 {
    let (x, y) = plane.corner(block);
    let [mut across, mut both, mut down] = [[0f32; BLOCK_SIDE]; 3];
    for row in y..y + BLOCK_SIDE {
        let [right, below] = slopes(plane, x, row);
        for i in 0..BLOCK_SIDE {
            across[i] += right[i] * right[i];
            both[i] += right[i] * below[i];
            down[i] += below[i] * below[i];
        }
    }
    // products of twice the slopes
    let [across, both, down] = [across, both, down].map(|lanes| lanes.iter().sum::<f32>() / (4.0 * PELS));
    let half = (across - down) / 2.0;
    ((across + down) / 2.0 - (half * half + both * both).sqrt()).max(0.0)
}

#[cfg(test)]
mod tests {
    use super::*;

    fn told(pel: impl Fn(f32, f32) -> f32, kept: &[bool]) -> Vec<usize> {
        let pels = (0..96 * 32).map(|i| (4096.0 + pel((i % 96) as f32, (i / 96) as f32)) as u16).collect();
        let plane = Plane { width: 96, height: 32, pels };
        usable(Pair { first: &plane, second: &plane, kept }, &[223 << 11 | 223 << 2; 12])
    }

    fn bumps(x: f32, y: f32) -> f32 {
        300.0 * (x / 2.0).sin() * (y / 3.0).cos()
    }

    #[test]
    fn texture_both_ways_tells_and_stripes_do_not() {
        let all: Vec<usize> = (0..12).collect();
        assert_eq!(told(bumps, &[true; 12]), all);
        assert_eq!(told(|x, _| 300.0 * (x / 2.0).sin(), &[true; 12]), []);
        assert_eq!(told(|_, _| 0.0, &[true; 12]), []);
        // a faint half beside a strong one
        let half = |x: f32, y: f32| if x < 48.0 { bumps(x, y) } else { bumps(x, y) / 20.0 };
        assert_eq!(told(half, &[true; 12]), [0, 1, 2, 6, 7, 8]);
    }

    #[test]
    fn masked_blocks_are_left_out() {
        let kept: [bool; 12] = std::array::from_fn(|block| block % 2 == 0);
        assert_eq!(told(bumps, &kept), [0, 2, 4, 6, 8, 10]);
        assert_eq!(told(bumps, &[false; 12]), []);
    }
}
