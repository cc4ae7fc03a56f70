//! An arrow for each block, coloured by how far the model is from it.

use super::{Colour, HALO_WIDTH, Point, Strokes};
use crate::measure::{Block, Measured};

/// Blocks that agree, that are off by up to [`NEAR`] pels, and that are further off. A reader who doesn't see red and
/// green apart sees these apart.
pub const COLOURS: [Colour; 3] = [[60, 190, 255], [255, 210, 40], [255, 80, 30]];
/// A block that is off by more than this many pels is far off.
pub const NEAR: f64 = 1.0;

/// The longest that a usual arrow gets, in pels of the picture, and how many times a motion may be drawn.
const REACH: f64 = 15.0;
const TIMES: [f64; 6] = [8.0, 5.0, 2.0, 1.0, 0.5, 0.25];
/// The longest that any arrow gets: one that would be longer is drawn so long, with two heads.
const LONGEST: f64 = 30.0;

/// How many times its length a motion is drawn: the most at which three quarters of them don't reach the next block.
pub fn times(blocks: &[Block]) -> f64 {
    let mut lengths: Vec<f64> = blocks.iter().map(length).collect();
    lengths.sort_by(f64::total_cmp);
    let usual = lengths.get(lengths.len() * 3 / 4).copied().unwrap_or(0.0);
    if usual == 0.0 {
        return 1.0;
    }
    TIMES.into_iter().find(|times| times * usual <= REACH).unwrap_or(TIMES[TIMES.len() - 1])
}

/// The longest motion whose arrow isn't shortened, in pels.
pub fn longest(times: f64) -> f64 {
    LONGEST / times
}

/// Whether an arrow is shortened.
pub fn is_shortened(block: &Block, times: f64) -> bool {
    length(block) > longest(times)
}

fn length(block: &Block) -> f64 {
    block.motion.u.hypot(block.motion.v)
}

/// Which colour a block has.
pub fn rank(block: &Block, within: f64) -> usize {
    if block.off <= within { 0 } else { 1 + usize::from(block.off > NEAR.max(within)) }
}

/// An arrow: its shaft, and a head or two where it is long enough.
pub fn arrow(from: Point, to: Point, radius: f64, heads: usize) -> Vec<Vec<Point>> {
    let [dx, dy] = [to[0] - from[0], to[1] - from[1]];
    let length = dx.hypot(dy);
    if length < 2.0 * radius {
        return Vec::new();
    }
    let size = (5.0 * radius).min(0.5 * length);
    let (ahead, aside) = (0.86 * size / length, 0.5 * size / length);
    let head = |number: usize| {
        let behind = number as f64 * ahead;
        let tip = [to[0] - behind * dx, to[1] - behind * dy];
        let back = |side: f64| [tip[0] - ahead * dx - side * aside * dy, tip[1] - ahead * dy + side * aside * dx];
        vec![back(1.0), tip, back(-1.0)]
    };
    [vec![from, to]].into_iter().chain((0..heads).map(head)).collect()
}

/// The arrows of all blocks, in pixels from the picture's left top corner: for each colour the dots at which arrows
/// begin, then the arrows.
pub fn strokes(measured: &Measured, times: f64, scale: f64) -> Vec<Strokes> {
    let radius = (0.5 + 0.35 * scale).min(2.2);
    let mut strokes = Vec::new();
    for (number, colour) in COLOURS.into_iter().enumerate() {
        let own = measured.used().filter(|block| rank(block, measured.answer.within) == number);
        let (mut dots, mut arrows) = (Vec::new(), Vec::new());
        for block in own {
            let from = [block.x, block.y].map(|pel| (pel + 0.5) * scale);
            let shortened = is_shortened(block, times);
            let drawn = if shortened { LONGEST / length(block) } else { times };
            let to = [from[0] + block.motion.u * drawn * scale, from[1] + block.motion.v * drawn * scale];
            dots.push(vec![from, from]);
            arrows.extend(arrow(from, to, radius, 1 + usize::from(shortened)));
        }
        strokes.push(Strokes { colour, radius: 1.6 * radius, lines: dots });
        strokes.push(Strokes { colour, radius, lines: arrows });
    }
    strokes
}

/// How many pixels the strokes reach beyond a picture of these sides: before its left and top, and behind its right and
/// bottom.
pub fn beyond(strokes: &[Strokes], sides: [usize; 2]) -> [[usize; 2]; 2] {
    let mut beyond = [[0.0f64; 2]; 2];
    for group in strokes {
        let radius = group.radius + HALO_WIDTH;
        for point in group.lines.iter().flatten() {
            for axis in 0..2 {
                beyond[0][axis] = beyond[0][axis].max(radius - point[axis]);
                beyond[1][axis] = beyond[1][axis].max(point[axis] + radius - sides[axis] as f64);
            }
        }
    }
    beyond.map(|ends| ends.map(|pixels| pixels.ceil() as usize))
}

#[cfg(test)]
mod tests {
    use super::super::tests::example;
    use super::*;
    use belt::Motion;

    fn block(u: f64, v: f64) -> Block {
        Block { x: 23.5, y: 7.5, motion: Motion { u, v }, off: 0.0, masked: false }
    }

    #[test]
    fn colours_go_by_the_distance_from_the_model() {
        let at = |off| rank(&Block { off, ..block(0.0, 0.0) }, 0.25);
        assert_eq!([0.0, 0.25, 0.26, 1.0, 1.01].map(at), [0, 0, 1, 1, 2]);
    }

    #[test]
    fn arrows_are_drawn_as_long_as_they_fit() {
        let with = |u: f64| times(&[block(u, 0.0)]);
        assert_eq!([0.0, 0.5, 3.0, 7.0, 15.0, 27.875].map(with), [1.0, 8.0, 5.0, 2.0, 1.0, 0.5]);
    }

    #[test]
    fn a_long_arrow_is_shortened_and_has_two_heads() {
        let (mut measured, _) = example();
        measured.blocks = vec![block(1.5, 0.0), block(0.0, 9.0)];
        let strokes = strokes(&measured, 20.0, 4.0);
        let [whole, _, shortened, ..] = &strokes[1].lines[..] else { panic!("two arrows") };
        assert_eq!(strokes[1].lines.len(), 2 + 3);
        assert_eq!(
            (&whole[..], &shortened[..]),
            (&[[96.0, 32.0], [216.0, 32.0]][..], &[[96.0, 32.0], [96.0, 152.0]][..])
        );
        assert!(!is_shortened(&measured.blocks[0], 20.0) && is_shortened(&measured.blocks[1], 20.0));
    }

    #[test]
    fn what_reaches_beyond_the_picture_is_counted() {
        let strokes = |lines| [Strokes { colour: [0; 3], radius: 2.0, lines }];
        let inside = vec![vec![[10.0, 10.0], [30.0, 12.0]]];
        assert_eq!(beyond(&strokes(inside), [40, 20]), [[0, 0], [0, 0]]);
        let outside = vec![vec![[-6.0, 10.0], [50.5, 18.0]]];
        assert_eq!(beyond(&strokes(outside), [40, 20]), [[10, 0], [14, 2]]);
    }
}
