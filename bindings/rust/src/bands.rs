//! A frame in bands of block rows, and on several threads (docs/RULES.md, 'Search').

use crate::refusal::judged_lists;
use crate::{BLOCK_SIDE, Length, Refusal, Searched, raw};
use core::ops::Range;

/// Halves a plane: (`width` / 2) × (`height` / 2) values go to the front of `out`, where a side is under 16 too.
///
/// # Errors
///
/// [`Refusal::TooLarge`], [`Refusal::WrongLength`], [`Refusal::TooShort`].
///
/// ```
/// let mut half = [0; 3];
/// belt::half_plane(&[1, 2, 3, 4, 5, 6, 7, 8], 4, 2, &mut half)?;
/// assert_eq!(half, [4, 6, 0]);
/// # Ok::<(), belt::Refusal>(())
/// ```
pub fn half_plane(plane: &[u16], width: usize, height: usize, out: &mut [u16]) -> Result<(), Refusal> {
    let refusal = raw::half_plane(plane, width, height, out);
    judged_lists(
        refusal,
        (),
        || [Length::of("plane", plane, width.saturating_mul(height))],
        || [Length::of("out", out, halved(width, height))],
    )
}

/// The values of a half plane, where there are no samples too.
const fn halved(width: usize, height: usize) -> usize {
    (width / 2).saturating_mul(height / 2)
}

/// Searches the block rows `rows` of the `height` / 16, over the half planes that [`half_plane`] makes: their words go to
/// the front of `words`. Bands that follow on, from 0 to the last row, have together the words of
/// [`crate::collect_motion_samples`], and their rows added are its rows. Planes and half planes are only read: threads may
/// share them, each with words of its own. [`crate::search_parallel`] does so.
///
/// Whatever stands in the place of a half plane is no fault: the words are then those of such half planes.
///
/// # Errors
///
/// [`Refusal::TooLarge`], [`Refusal::WrongLength`] (half planes too, of (`width` / 2) × (`height` / 2) values),
/// [`Refusal::NoSuchSlot`] where a row isn't there or the first stands behind the last, [`Refusal::TooShort`].
///
/// ```
/// let (mut earlier, mut later) = ([0; 96 * 80], [0; 96 * 80]);
/// belt::make_practice_planes(1, 96, 80, -2, 4, &mut earlier, &mut later)?;
/// let (mut input_half, mut ref_half) = ([0; 48 * 40], [0; 48 * 40]);
/// belt::half_plane(&earlier, 96, 80, &mut input_half)?;
/// belt::half_plane(&later, 96, 80, &mut ref_half)?;
/// let mut words = [0; 30];
/// let (upper, lower) = words.split_at_mut(12);
/// let above = belt::search_band(&earlier, &later, 96, 80, &input_half, &ref_half, 0..2, upper)?;
/// let below = belt::search_band(&earlier, &later, 96, 80, &input_half, &ref_half, 2..5, lower)?;
/// assert_eq!((above.samples, below.samples), (12, 18));
///
/// let mut buffers = belt::Buffers::new(96, 80);
/// let whole = buffers.search_parallel(&belt::Task::new(&earlier, &later, 96, 80), 2)?;
/// assert_eq!((whole.rows, &buffers.words[..]), (above.rows + below.rows, &words[..]));
/// # Ok::<(), belt::Refusal>(())
/// ```
#[allow(clippy::too_many_arguments)]
pub fn search_band(
    input: &[u16],
    reference: &[u16],
    width: usize,
    height: usize,
    input_half: &[u16],
    ref_half: &[u16],
    rows: Range<usize>,
    words: &mut [u32],
) -> Result<Searched, Refusal> {
    let Range { start: first, end } = rows;
    let found = raw::search_band(input, reference, width, height, input_half, ref_half, first, end, words);
    let (pels, half) = (width.saturating_mul(height), halved(width, height));
    judged_lists(
        found.refusal,
        Searched { samples: found.samples, rows: found.rows },
        || {
            [
                Length::of("input", input, pels),
                Length::of("reference", reference, pels),
                Length::of("input_half", input_half, half),
                Length::of("ref_half", ref_half, half),
            ]
        },
        || [Length::of("words", words, end.saturating_sub(first).saturating_mul(width / BLOCK_SIDE))],
    )
}

#[cfg(feature = "std")]
pub use threads::search_parallel;
#[cfg(feature = "std")]
pub(crate) use threads::searched;

#[cfg(feature = "std")]
mod threads {
    use super::*;
    use crate::{collect_motion_samples, half_plane_values, rooms, sample_count};
    use std::sync::{Mutex, PoisonError};
    use std::thread::{self, Builder};

    /// [`collect_motion_samples`] on so many threads, this one among them: the same answer and the same buffers, bit for
    /// bit, refused and accepted alike. Each thread takes the next block row that none has taken. 0 counts as 1, and there
    /// are never more threads than block rows; where the system starts fewer, these do all the work.
    ///
    /// # Errors
    ///
    /// Those of [`collect_motion_samples`].
    ///
    /// ```
    /// let (mut earlier, mut later) = ([0; 96 * 80], [0; 96 * 80]);
    /// belt::make_practice_planes(1, 96, 80, -2, 4, &mut earlier, &mut later)?;
    /// let (mut input_half, mut ref_half, mut words) = ([0; 48 * 40], [0; 48 * 40], [0; 30]);
    /// let found = belt::search_parallel(
    ///     &earlier, &later, 96, 80, &[belt::METAL; 30], &mut input_half, &mut ref_half, &mut words, 3,
    /// )?;
    /// assert_eq!(found.samples, 30);
    /// # Ok::<(), belt::Refusal>(())
    /// ```
    #[allow(clippy::too_many_arguments)]
    pub fn search_parallel(
        input_y: &[u16],
        ref_y: &[u16],
        width: usize,
        height: usize,
        classes: &[u8],
        input_half: &mut [u16],
        ref_half: &mut [u16],
        words: &mut [u32],
        threads: usize,
    ) -> Result<Searched, Refusal> {
        // judged on no room at all: every other row is judged before that one
        let early =
            raw::collect_motion_samples(input_y, ref_y, width, height, classes, &mut [], &mut [], &mut []).refusal;
        let enough = rooms(input_half, ref_half, words, width, height).iter().all(|room| room.given >= room.wanted);
        if early != NO_ROOM || !enough {
            return collect_motion_samples(input_y, ref_y, width, height, classes, input_half, ref_half, words);
        }
        Ok(searched([input_y, ref_y], width, height, [input_half, ref_half], words, threads))
    }

    /// The row of a buffer that is too short: that of a frame with samples and no room, if no row before it refuses.
    const NO_ROOM: u32 = 3;

    /// The search of planes with samples, where nothing refuses and the room is enough.
    pub(crate) fn searched(
        [input, reference]: [&[u16]; 2],
        width: usize,
        height: usize,
        [input_half, ref_half]: [&mut [u16]; 2],
        words: &mut [u32],
        threads: usize,
    ) -> Searched {
        let (samples, half) = (sample_count(width, height), half_plane_values(width, height));
        let threads = threads.clamp(1, height / BLOCK_SIDE);
        let (input_half, ref_half) = (&mut input_half[..half], &mut ref_half[..half]);
        let halves = [(input, &mut *input_half), (reference, &mut *ref_half)];
        shared(threads.min(2), halves.into_iter(), |(plane, out)| {
            half_plane(plane, width, height, out).expect("a plane that was judged");
            0
        });
        let bands = words[..samples].chunks_mut(width / BLOCK_SIDE).enumerate();
        let rows = shared(threads, bands, |(row, words)| {
            let found = search_band(input, reference, width, height, input_half, ref_half, row..row + 1, words);
            found.expect("planes that were judged").rows
        });
        Searched { samples, rows }
    }

    /// What each item comes to, added up, on so many threads, of which each takes the next item that none has taken.
    fn shared<T: Send>(threads: usize, items: impl Iterator<Item = T> + Send, each: impl Fn(T) -> u32 + Sync) -> u32 {
        let items = Mutex::new(items);
        let next = || items.lock().unwrap_or_else(PoisonError::into_inner).next();
        let work = || core::iter::from_fn(next).map(&each).sum::<u32>();
        thread::scope(|scope| {
            let begun = |_| Builder::new().spawn_scoped(scope, work).ok();
            let others: Vec<_> = (1..threads).map_while(begun).collect();
            let own = work();
            others.into_iter().fold(own, |sum, other| sum + other.join().expect("it ends"))
        })
    }
}
