//! Frames stored as blocks of 512 bytes, read, converted and listed (docs/RULES.md, 'Sample block').

use crate::refusal::{judged, judged_lists};
use crate::{BLOCK_BYTES, Form, Length, Refusal, TEXT_BYTES, raw};

/// A frame that was read: its number and how many words it has.
#[derive(Clone, Copy, Debug, PartialEq, Eq)]
pub struct Frame {
    /// The frame's number.
    pub number: u16,
    /// How many words it has.
    pub samples: usize,
}

/// A block that was judged without its neighbours.
#[derive(Clone, Copy, Debug, PartialEq, Eq)]
pub struct Block {
    /// The number of its frame.
    pub frame: u16,
    /// Its place in the frame, from 0.
    pub ordinal: usize,
    /// How many words it holds.
    pub count: usize,
}

/// How many blocks so many samples take in a form.
///
/// ```
/// use belt::Form;
///
/// assert_eq!([100, 101, 126, 4096].map(|samples| belt::blocks_of(samples, Form::One)), [1, 1, 2, 33]);
/// assert_eq!([100, 101, 126, 4096].map(|samples| belt::blocks_of(samples, Form::Two)), [1, 2, 2, 41]);
/// ```
#[must_use]
pub const fn blocks_of(samples: usize, form: Form) -> usize {
    samples.div_ceil(form.samples())
}

/// How many bytes the blocks of so many samples take in a form.
///
/// ```
/// assert_eq!(belt::block_bytes(101, belt::Form::Two), 2 * belt::BLOCK_BYTES);
/// ```
#[must_use]
pub const fn block_bytes(samples: usize, form: Form) -> usize {
    blocks_of(samples, form).saturating_mul(BLOCK_BYTES)
}

/// Stores a frame's words, with class bits zero, and a class for each as blocks of form 2 ('Sample block'); answers how
/// many.
///
/// # Errors
///
/// [`Refusal::TooLarge`], [`Refusal::WrongLength`], [`Refusal::NoSuchCode`], [`Refusal::NotRising`],
/// [`Refusal::TooShort`], [`Refusal::ShutterClosed`], also without words.
///
/// ```
/// use belt::{FILM, Frame};
///
/// let mut block = [0; belt::BLOCK_BYTES];
/// assert_eq!(belt::write_frame(5, &[0x0006_FB7C], &[FILM], &mut block), Ok(1));
/// assert_eq!(block[8..13], [0x00, 0x06, 0xFB, 0x7C, FILM]);
/// assert_eq!(block[508..], [0x04, 0x0C, 0xFD, 0x7E]);
/// let (mut words, mut classes) = ([0], [0]);
/// assert_eq!(belt::read_both(&block, &mut words, &mut classes), Ok(Frame { number: 5, samples: 1 }));
/// assert_eq!((words, classes), ([0x0006_FB7C], [FILM]));
/// ```
pub fn write_frame(frame: u16, words: &[u32], classes: &[u8], blocks: &mut [u8]) -> Result<usize, Refusal> {
    let stored = raw::write_frame(frame, words, classes, blocks);
    judged_lists(
        stored.refusal,
        stored.blocks,
        || [Length::of("classes", classes, words.len())],
        || [Length::of("blocks", blocks, block_bytes(words.len(), Form::Two))],
    )
}

/// The samples of a frame whose blocks are right, as its first block says.
pub(crate) fn total(bytes: &[u8]) -> usize {
    usize::from(u16::from_be_bytes([bytes[4], bytes[5]]))
}

/// Reads the frame of either form that the bytes begin with ('Sample block'): words, with class bits zero, and a class
/// for each. Bytes after its last block aren't read. No bytes are frame 0 with no samples.
///
/// # Errors
///
/// [`Refusal::EndsFirst`], [`Refusal::WrongCheck`], [`Refusal::WrongBlock`], also for mixed forms,
/// [`Refusal::ShutterClosed`], and [`Refusal::TooShort`] of either buffer.
///
/// ```
/// use belt::{FIBRE, FILM, Frame, Length, Refusal};
///
/// let mut block = [0; belt::BLOCK_BYTES];
/// belt::write_frame(5, &[0x0006_FB7C, 0x0016_FB7C], &[FILM, FIBRE], &mut block)?;
/// let (mut words, mut classes) = ([0; 2], [0; 2]);
/// assert_eq!(belt::read_both(&block, &mut words, &mut classes), Ok(Frame { number: 5, samples: 2 }));
/// assert_eq!((words, classes), ([0x0006_FB7C, 0x0016_FB7C], [FILM, FIBRE]));
/// let short = Length { name: "words", given: 1, wanted: 2 };
/// assert_eq!(belt::read_both(&block, &mut [0], &mut classes), Err(Refusal::TooShort(short)));
/// # Ok::<(), Refusal>(())
/// ```
pub fn read_both(bytes: &[u8], words: &mut [u32], classes: &mut [u8]) -> Result<Frame, Refusal> {
    let read = raw::read_both(bytes, words, classes);
    let frame = Frame { number: read.frame, samples: read.samples };
    // row 3 is judged last, so the blocks are right
    let lent = || [Length::of("words", words, total(bytes)), Length::of("classes", classes, total(bytes))];
    judged_lists(read.refusal, frame, || [], lent)
}

/// Reads the frame of form 1 that the bytes begin with ('Sample block'): words with their classes in them. Bytes after
/// its last block aren't read. No bytes are frame 0 with no samples.
///
/// # Errors
///
/// [`Refusal::EndsFirst`], [`Refusal::WrongCheck`], [`Refusal::WrongBlock`], also for form 2,
/// [`Refusal::ShutterClosed`], [`Refusal::TooShort`].
///
/// ```
/// use belt::{Frame, METAL};
///
/// let (mut new, mut old, mut words) = ([0; belt::BLOCK_BYTES], [0; belt::BLOCK_BYTES], [0]);
/// belt::write_frame(5, &[0x0006_FB7C], &[METAL], &mut new)?;
/// belt::to_form1(&new, &mut old)?;
/// assert_eq!(belt::read_frame(&old, &mut words), Ok(Frame { number: 5, samples: 1 }));
/// assert_eq!(words, [0x0006_FB7F]);
/// # Ok::<(), belt::Refusal>(())
/// ```
pub fn read_frame(bytes: &[u8], words: &mut [u32]) -> Result<Frame, Refusal> {
    let read = raw::read_frame(bytes, words);
    let frame = Frame { number: read.frame, samples: read.samples };
    judged_lists(read.refusal, frame, || [], || [Length::of("words", words, total(bytes))])
}

/// Carries the frame of form 2 that the bytes begin with over to form 1 ('Sample block'); answers how many blocks.
///
/// # Errors
///
/// [`Refusal::EndsFirst`], [`Refusal::WrongCheck`], [`Refusal::WrongBlock`], also for form 1,
/// [`Refusal::ShutterClosed`], [`Refusal::NotHeld`] where a sample is of class [`crate::FILM`], [`Refusal::TooShort`].
///
/// ```
/// use belt::{FILM, METAL, Refusal};
///
/// let (mut new, mut old) = ([0; belt::BLOCK_BYTES], [0; belt::BLOCK_BYTES]);
/// belt::write_frame(5, &[0x0006_FB7C], &[METAL], &mut new)?;
/// assert_eq!(belt::to_form1(&new, &mut old), Ok(1));
/// assert_eq!((old[2], &old[8..12]), (1, &[0x00, 0x06, 0xFB, 0x7F][..]));
/// belt::write_frame(5, &[0x0006_FB7C], &[FILM], &mut new)?;
/// assert_eq!(belt::to_form1(&new, &mut old), Err(Refusal::NotHeld));
/// # Ok::<(), Refusal>(())
/// ```
pub fn to_form1(bytes: &[u8], blocks: &mut [u8]) -> Result<usize, Refusal> {
    converted(raw::to_form1(bytes, blocks), bytes, blocks, Form::One)
}

/// Carries the frame of form 1 that the bytes begin with over to form 2 ('Sample block'); answers how many blocks.
///
/// # Errors
///
/// [`Refusal::EndsFirst`], [`Refusal::WrongCheck`], [`Refusal::WrongBlock`], also for form 2,
/// [`Refusal::ShutterClosed`], [`Refusal::TooShort`].
///
/// ```
/// use belt::Refusal;
///
/// let (mut old, mut back, mut new) = ([0; 512], [0; 512], [0; 512]);
/// belt::write_frame(5, &[0x0006_FB7C], &[belt::METAL], &mut new)?;
/// assert_eq!(belt::to_form2(&new, &mut back), Err(Refusal::WrongBlock));
/// assert_eq!(belt::to_form1(&new, &mut old), Ok(1));
/// assert_eq!(old[8..12], [0x00, 0x06, 0xFB, 0x7F]);
/// assert_eq!(belt::to_form2(&old, &mut back), Ok(1));
/// assert_eq!(back, new);
/// # Ok::<(), belt::Refusal>(())
/// ```
pub fn to_form2(bytes: &[u8], blocks: &mut [u8]) -> Result<usize, Refusal> {
    converted(raw::to_form2(bytes, blocks), bytes, blocks, Form::Two)
}

fn converted(answer: raw::Stored, bytes: &[u8], blocks: &[u8], form: Form) -> Result<usize, Refusal> {
    let lent = || [Length::of("blocks", blocks, block_bytes(total(bytes), form))];
    judged_lists(answer.refusal, answer.blocks, || [], lent)
}

/// Judges the block of either form that the bytes begin with, without its neighbours ('Sample block').
///
/// # Errors
///
/// [`Refusal::EndsFirst`], [`Refusal::WrongCheck`], [`Refusal::WrongBlock`].
///
/// ```
/// use belt::{Block, Refusal};
///
/// let mut block = [0; belt::BLOCK_BYTES];
/// belt::write_frame(5, &[0x0006_FB7C], &[belt::FILM], &mut block)?;
/// assert_eq!(belt::judge_block(&block), Ok(Block { frame: 5, ordinal: 0, count: 1 }));
/// block[511] ^= 1;
/// assert_eq!(belt::judge_block(&block), Err(Refusal::WrongCheck));
/// # Ok::<(), Refusal>(())
/// ```
pub fn judge_block(bytes: &[u8]) -> Result<Block, Refusal> {
    let read = raw::judge_block(bytes);
    judged(read.refusal, Block { frame: read.frame, ordinal: read.ordinal, count: read.count })
}

/// The text of the block that the bytes begin with ('Job'), in the buffer: a line with frame, ordinal and count, and
/// one for each sample with row, column, v, u in eighths and class; or `refused` and the row.
///
/// ```
/// let mut block = [0; belt::BLOCK_BYTES];
/// belt::write_frame(5, &[0x0006_FB7C], &[belt::FILM], &mut block)?;
/// let mut text = [0; belt::TEXT_BYTES];
/// assert_eq!(belt::list_block(&block, &mut text), "frame 5 block 0 count 1\n0 0 0 0 4\n");
/// # Ok::<(), belt::Refusal>(())
/// ```
pub fn list_block<'a>(bytes: &[u8], text: &'a mut [u8; TEXT_BYTES]) -> &'a str {
    let length = raw::list_block(bytes, text);
    core::str::from_utf8(&text[..length]).expect("the text is ASCII")
}
