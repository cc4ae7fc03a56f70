//! Headers from fixed seeds, written and read by both sides.

use belt::{Refusal, StoredModel};
use oracle::Models;
use oracle::list::Lcg;

use crate::inputs::{HIGH_PRECISION, IDENTITY, ROTZOOM, TRANSLATION, carried};
use crate::placing::Field;

/// How far the prior is from the models.
#[derive(Clone, Copy)]
pub enum Distance {
    /// Up to three steps of the grid: short codes.
    Near,
    /// At the end of the range on the other side: long codes.
    Far,
}

impl Distance {
    pub const ALL: [Distance; 2] = [Distance::Near, Distance::Far];

    pub fn name(self) -> &'static str {
        match self {
            Distance::Near => "near",
            Distance::Far => "far",
        }
    }
}

/// Seven models as stored, at high precision, and their prior; both once more in the form that ours takes.
#[derive(Clone, Copy)]
pub struct Header {
    pub types: [u8; 7],
    pub models: Models,
    pub prior: Models,
    stored: [StoredModel; 7],
    stored_prior: [StoredModel; 7],
}

impl Header {
    /// Models of one type, anywhere in the range. A rotation-zoom's last pair isn't free, and isn't made here.
    pub fn new(kind: u8, distance: Distance) -> Self {
        assert_ne!(kind, ROTZOOM);
        let mut lcg = Lcg(u32::from(kind));
        let (mut models, mut priors) = ([oracle::IDENTITY; 7], [oracle::IDENTITY; 7]);
        for (model, prior) in models.iter_mut().zip(&mut priors) {
            for slot in 0..6 {
                let middle = oracle::IDENTITY[slot];
                if slot < carried(kind) {
                    let offset = i64::from(lcg.step() as i16) * i64::from(reach(slot)) / (1 << 15);
                    model[slot] = oracle::quantize_global_param(kind, true, slot, middle + offset as i32);
                }
                let back = if model[slot] > middle { -1 } else { 1 };
                prior[slot] = match distance {
                    Distance::Near => model[slot] + back * step(kind, slot) * i32::from(lcg.below(4)),
                    Distance::Far => middle + back * reach(slot),
                };
            }
        }
        let (stored, stored_prior) = (models.map(StoredModel), priors.map(StoredModel));
        Self { types: [kind; 7], models, prior: priors, stored, stored_prior }
    }

    /// The same models with themselves as prior: a frame that follows its like in a run.
    pub fn again(self) -> Self {
        Self { prior: self.models, stored_prior: self.stored, ..self }
    }

    pub fn write(&self, room: &mut [u8]) -> Result<usize, Refusal> {
        belt::encode_inter_global_motion(&self.types, &self.stored, HIGH_PRECISION, &self.stored_prior, 0, room)
    }

    pub fn rust_write(&self) -> (Vec<u8>, usize) {
        oracle::write_header(&self.types, &self.models, true, &self.prior, 0)
    }

    /// The header's fields in their order: a reference's type bits, then a field for each of its coefficients.
    pub fn fields(&self) -> Vec<Field> {
        let (bytes, bits) = self.rust_write();
        let field = |at: usize, width: u32| (at..at + width as usize).fold(0, |v, i| 2 * v + bit(&bytes, i));
        let (mut at, mut fields) = (0, Vec::new());
        for kind in self.types {
            let symbols = if kind == TRANSLATION { 2 * (1 << 9) + 1 } else { 2 * (1 << 12) + 1 };
            let mut widths = vec![if kind == IDENTITY { 1 } else { 3 }];
            let mut end = at + widths[0] as usize;
            for _ in 0..carried(kind) {
                widths.push(code_width(&field, end, symbols));
                end += widths[widths.len() - 1] as usize;
            }
            for width in widths {
                fields.push((width, field(at, width)));
                at += width as usize;
            }
        }
        assert_eq!(at, bits);
        fields
    }

    pub fn read(&self, bytes: &[u8]) -> Result<belt::Models, Refusal> {
        belt::read_global_motion_params(bytes, 0, HIGH_PRECISION, &self.stored_prior)
    }

    pub fn rust_read(&self, bytes: &[u8]) -> Option<([u8; 7], Models, usize)> {
        oracle::read_header(bytes, 0, true, &self.prior)
    }
}

/// The farthest that a stored number is from the identity's.
fn reach(slot: usize) -> i32 {
    if slot < 2 { 1 << 22 } else { 1 << 13 }
}

/// The step of the grid, at high precision.
fn step(kind: u8, slot: usize) -> i32 {
    match (kind, slot) {
        (TRANSLATION, 0 | 1) => 1 << 13,
        (_, 0 | 1) => 1 << 10,
        _ => 1 << 1,
    }
}

fn bit(bytes: &[u8], at: usize) -> u32 {
    u32::from(bytes[at / 8] >> (7 - at % 8)) & 1
}

/// How many bits the code at a position has: clause 5.9.28.
fn code_width(field: &impl Fn(usize, u32) -> u32, at: usize, symbols: u32) -> u32 {
    let (mut rung, mut start) = (0, 0);
    loop {
        let width = if rung == 0 { 3 } else { rung + 2 };
        if symbols <= start + 3 * (1 << width) {
            let left = symbols - start;
            let most = u32::BITS - left.leading_zeros();
            let short = field(at + rung as usize, most - 1) < (1 << most) - left;
            return rung + most - u32::from(short);
        }
        if field(at + rung as usize, 1) == 0 {
            return rung + 1 + width;
        }
        rung += 1;
        start += 1 << width;
    }
}
