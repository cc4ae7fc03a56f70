//! A run of frames by docs/RULES.md, 'A run of frames': the prior is carried from frame to frame by hand, headers are
//! the Rust's, blocks those of `blocks`.

use crate::blocks::{self, BLOCK, Form, LAST_CLASS, MOST_SAMPLES, ONE, TWO};
use crate::{IDENTITY, Models, quantize_global_param, read_header, read_key_frame, write_header};

/// Rows of the table.
pub const TOO_LARGE: u32 = 1;
pub const WRONG_LENGTH: u32 = 2;
pub const TOO_SHORT: u32 = 3;
pub const NO_SUCH_CODE: u32 = 4;
pub const OFF_GRID: u32 = 7;
pub const PRIOR_OUT: u32 = 8;
pub const ENDS_FIRST: u32 = 9;
pub const NOT_HELD: u32 = 13;
pub const START_OVER: u32 = 14;

/// The switch code that goes over to form 2.
const TO_FORM_2: u8 = 2;

/// The prior of the next inter frame, the flag and the form.
#[derive(Clone, Copy, Debug, PartialEq, Eq)]
pub struct Run {
    pub prior: Models,
    pub flag: u8,
    pub form: u32,
}

impl Run {
    /// What a refused start gives: no run, refused ever after.
    pub const NONE: Self = Self { prior: [[0; 6]; 7], flag: 0, form: 0 };

    pub fn start(flag: u8, form: u32) -> Result<Self, u32> {
        let run = Self { prior: [IDENTITY; 7], flag, form };
        if run.codes_are_right() { Ok(run) } else { Err(NO_SUCH_CODE) }
    }

    fn codes_are_right(&self) -> bool {
        self.flag < 2 && (1..=2).contains(&self.form)
    }

    /// Each number of the prior within reach of the identity's.
    pub fn prior_is_in_range(&self) -> bool {
        let near = |slot: usize, number: i32| {
            let reach = if slot < 2 { 4_194_304 } else { 8_192 };
            (i64::from(number) - i64::from(IDENTITY[slot])).abs() <= reach
        };
        self.prior.iter().all(|model| model.iter().enumerate().all(|(slot, &number)| near(slot, number)))
    }

    /// The run handed in: 4, 8.
    pub fn judged(&self) -> Result<(), u32> {
        match () {
            () if !self.codes_are_right() => Err(NO_SUCH_CODE),
            () if !self.prior_is_in_range() => Err(PRIOR_OUT),
            () => Ok(()),
        }
    }

    fn high(&self) -> bool {
        self.flag == 1
    }

    /// The form held, of a run that isn't refused.
    pub fn form_held(&self) -> Form {
        if self.form == 1 { ONE } else { TWO }
    }

    /// Whether the form held has a class over those that it can hold in the list.
    pub fn holds(&self, classes: &[u8]) -> bool {
        classes.iter().all(|&class| class <= self.form_held().last_class)
    }

    pub fn switch(&mut self, code: u8) -> Result<(), u32> {
        if code > TO_FORM_2 {
            return Err(NO_SUCH_CODE);
        }
        self.judged()?;
        match code {
            TO_FORM_2 => self.form = 2,
            _ => self.flag = code,
        }
        Ok(())
    }

    /// A frame's models in the run, written from bit `start` of the header on: the bits. The models are the next prior.
    pub fn frame(
        &mut self,
        intra: bool,
        types: &[u8],
        numbers: &[i32],
        start: usize,
        header: &mut [u8],
    ) -> Result<usize, u32> {
        let (Ok(types), Ok(params)) = (<[u8; 7]>::try_from(types), models_of(numbers)) else {
            return Err(WRONG_LENGTH);
        };
        if types.iter().any(|&kind| kind > 3) || !self.codes_are_right() {
            return Err(NO_SUCH_CODE);
        }
        if start > 7 {
            return Err(START_OVER);
        }
        let wrong = |(kind, model): (&u8, &[i32; 6])| off_grid(*kind, self.high(), model) || intra && *kind != 0;
        if types.iter().zip(&params).any(wrong) {
            return Err(OFF_GRID);
        }
        if !self.prior_is_in_range() {
            return Err(PRIOR_OUT);
        }
        let mut written = 0;
        if !intra {
            let (bytes, bits) = write_header(&types, &params, self.high(), &self.prior, start);
            if header.len() < bytes.len() {
                return Err(TOO_SHORT);
            }
            let before = header[0] & !(0xff >> start);
            header[..bytes.len()].copy_from_slice(&bytes);
            header[0] |= before;
            written = bits;
        }
        self.prior = params;
        Ok(written)
    }

    /// A frame's models read: types, models and bits. The models are the next prior.
    pub fn read(&mut self, intra: bool, header: &[u8], at: usize) -> Result<([u8; 7], Models, usize), u32> {
        self.judged()?;
        let read = match intra {
            true => read_key_frame(header, at),
            false => read_header(header, at, self.high(), &self.prior).ok_or(ENDS_FIRST)?,
        };
        self.prior = read.1;
        Ok(read)
    }

    /// A frame's samples stored in the form held: how many blocks.
    pub fn store(&self, frame: u16, words: &[u32], classes: &[u8], left: &mut [u8]) -> Result<usize, u32> {
        if words.len() > MOST_SAMPLES {
            return Err(TOO_LARGE);
        }
        if words.len() != classes.len() {
            return Err(WRONG_LENGTH);
        }
        if classes.iter().any(|&class| class > LAST_CLASS) {
            return Err(NO_SUCH_CODE);
        }
        self.judged()?;
        if !blocks::storable(words) {
            return Err(blocks::NOT_RISING);
        }
        if !self.holds(classes) {
            return Err(NOT_HELD);
        }
        let form = self.form_held();
        if left.len() < BLOCK * form.blocks_of(words.len()) {
            return Err(TOO_SHORT);
        }
        if frame == blocks::CLOSED {
            return Err(blocks::SHUTTER_CLOSED);
        }
        let stored = blocks::write(form, frame, &blocks::classed(words, classes));
        left[..stored.len()].copy_from_slice(&stored);
        Ok(stored.len() / BLOCK)
    }
}

/// Seven models of their numbers, where there are so many.
fn models_of(numbers: &[i32]) -> Result<Models, ()> {
    if numbers.len() != 42 {
        return Err(());
    }
    Ok(std::array::from_fn(|reference| std::array::from_fn(|slot| numbers[6 * reference + slot])))
}

/// Whether a model isn't one that a header of its type carries.
pub fn off_grid(kind: u8, high: bool, model: &[i32; 6]) -> bool {
    let carried = [0, 2, 4, 6][usize::from(kind)];
    let filled = match kind {
        2 => [0, 0, 0, 0, model[3].wrapping_neg(), model[2]],
        _ => IDENTITY,
    };
    (0..6).any(|slot| match slot < carried {
        true => quantize_global_param(kind, high, slot, model[slot]) != model[slot],
        false => model[slot] != filled[slot],
    })
}
