//! The search of a frame pair, the sizes that it needs, and planes to practise on (docs/RULES.md, 'Search').

use crate::refusal::judged_lists;
use crate::{BLOCK_SIDE, Length, Refusal, raw};

/// How many whole 16×16 blocks a plane has: the samples of a search.
///
/// ```
/// assert_eq!(belt::sample_count(33, 16), 2);
/// assert_eq!(belt::sample_count(15, 16), 0);
/// ```
#[must_use]
pub const fn sample_count(width: usize, height: usize) -> usize {
    (width / BLOCK_SIDE).saturating_mul(height / BLOCK_SIDE)
}

/// How many values a half plane has: none where there are no samples.
///
/// ```
/// assert_eq!(belt::half_plane_values(33, 16), 16 * 8);
/// assert_eq!(belt::half_plane_values(15, 16), 0);
/// ```
#[must_use]
pub const fn half_plane_values(width: usize, height: usize) -> usize {
    if sample_count(width, height) == 0 { 0 } else { (width / 2).saturating_mul(height / 2) }
}

/// The lists that a search and a job judge: two planes and the classes.
pub(crate) fn planes(input: &[u16], reference: &[u16], classes: &[u8], width: usize, height: usize) -> [Length; 3] {
    let pels = width.saturating_mul(height);
    [
        Length::of("input", input, pels),
        Length::of("reference", reference, pels),
        Length::of("classes", classes, sample_count(width, height)),
    ]
}

/// The buffers that a search and a job fill: half planes and words.
pub(crate) fn rooms(input_half: &[u16], ref_half: &[u16], words: &[u32], width: usize, height: usize) -> [Length; 3] {
    let half = half_plane_values(width, height);
    [
        Length::of("input_half", input_half, half),
        Length::of("ref_half", ref_half, half),
        Length::of("words", words, sample_count(width, height)),
    ]
}

/// What a search answers.
#[derive(Clone, Copy, Debug, PartialEq, Eq)]
#[non_exhaustive]
pub struct Searched {
    /// One for each whole 16×16 block.
    pub samples: usize,
    /// How many rows of absolute differences were added to find them ('Rows added'): 736 to 6,184 for a block.
    pub rows: u32,
}

/// Searches the motion of each whole 16×16 block of `input_y` in `ref_y` ('Search'): half planes and one word for
/// each block, with class bits zero. The classes are judged. With the earlier frame as `input_y` the motion is the load's,
/// with the later one its negative.
///
/// # Errors
///
/// [`Refusal::TooLarge`], [`Refusal::WrongLength`], [`Refusal::NoSuchCode`], [`Refusal::TooShort`].
///
/// ```
/// let plane = [7; 16 * 16];
/// let (mut input_half, mut ref_half, mut words) = ([0; 64], [0; 64], [0; 1]);
/// let found = belt::collect_motion_samples(
///     &plane, &plane, 16, 16, &[belt::METAL], &mut input_half, &mut ref_half, &mut words,
/// )?;
/// assert_eq!((found.samples, found.rows), (1, 736));
/// assert_eq!(words, [223 << 11 | 223 << 2]);
/// # Ok::<(), belt::Refusal>(())
/// ```
#[allow(clippy::too_many_arguments)]
pub fn collect_motion_samples(
    input_y: &[u16],
    ref_y: &[u16],
    width: usize,
    height: usize,
    classes: &[u8],
    input_half: &mut [u16],
    ref_half: &mut [u16],
    words: &mut [u32],
) -> Result<Searched, Refusal> {
    let found = raw::collect_motion_samples(input_y, ref_y, width, height, classes, input_half, ref_half, words);
    judged_lists(
        found.refusal,
        Searched { samples: found.samples, rows: found.rows },
        || planes(input_y, ref_y, classes, width, height),
        || rooms(input_half, ref_half, words, width, height),
    )
}

/// Makes a belt to practise on ('Practice belt'): a reference plane of noise, and the input plane whose pel at a place
/// is the reference pel `dy` rows further down and `dx` columns further right, coordinates clamped. Answers how many
/// pels each has. A search of the two looks for v = 8 `dy` and u = 8 `dx`.
///
/// # Errors
///
/// [`Refusal::TooLarge`], [`Refusal::TooFar`], [`Refusal::TooShort`].
///
/// ```
/// let (mut input, mut reference) = ([0; 4], [0; 4]);
/// assert_eq!(belt::make_practice_planes(1, 2, 2, 1, -1, &mut input, &mut reference), Ok(4));
/// assert_eq!(reference, [15496, 24200, 33046, 46195]);
/// assert_eq!(input, [33046; 4]);
/// ```
pub fn make_practice_planes(
    seed: u32,
    width: usize,
    height: usize,
    dy: i32,
    dx: i32,
    input: &mut [u16],
    reference: &mut [u16],
) -> Result<usize, Refusal> {
    let made = raw::make_practice_planes(seed, width, height, dy, dx, input, reference);
    judged_lists(
        made.refusal,
        made.pels,
        || [],
        || [Length::of("input", input, width * height), Length::of("reference", reference, width * height)],
    )
}
