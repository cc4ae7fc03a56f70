//! Answers of the Rust that this repository ports, over plain types.
//! A model is six numbers, x first as the fits have it; headers take and give models as stored.
//! A type is 0 to 3; every not-a-number in an answer is the one that `canonical` gives.

pub mod blocks;
pub mod header_files;
pub mod list;
mod ported;
pub mod practice;
pub mod rows;
pub mod run;
pub mod shear_files;
mod stand_ins;

use ported::{encoder, uncompressed_header_tail};
use stand_ins::{Error, bitreader, frame_header, inter_pred};

use bitreader::BitReader;
use encoder::bitwriter::BitWriter;
use encoder::global_motion::MotionSample;
use encoder::{frame_obu, global_motion};
use uncompressed_header_tail::{GlobalMotionParams, TOTAL_REFS_PER_FRAME, WarpModelType};

/// Six numbers for each of the references 1 to 7.
pub type Models = [[i32; 6]; 7];

/// Stored motions are eighths of a pel plus this (docs/RULES.md, 'Sample word').
const MOTION_BIAS: i32 = 223;
/// A block's side, and its centre from its first pel.
const BLOCK: usize = 16;
const BLOCK_CENTRE: f64 = 7.5;

pub const IDENTITY: [i32; 6] = [0, 0, 65536, 0, 0, 65536];

/// The value itself, or one bit pattern for every not-a-number.
pub fn canonical(value: f64) -> f64 {
    if value.is_nan() { f64::from_bits(0x7ff8_0000_0000_0000) } else { value }
}

/// `collect_motion_samples`: x, y, u, v of each sample.
pub fn search(input: &[u16], reference: &[u16], width: usize, height: usize) -> Vec<[f64; 4]> {
    global_motion::search(input, reference, width, height)
}

/// The lines of `collect_motion_samples` that halve a plane.
pub fn half_plane(plane: &[u16], width: usize, height: usize) -> Vec<u16> {
    global_motion::half_plane(plane, width, height)
}

/// The number of blocks wholly inside a plane.
pub fn sample_count(width: usize, height: usize) -> usize {
    (width / BLOCK) * (height / BLOCK)
}

/// The sample words of a search, with class bits zero.
pub fn sample_words(input: &[u16], reference: &[u16], width: usize, height: usize) -> Vec<u32> {
    search(input, reference, width, height).iter().map(word_of).collect()
}

/// The sample word of a sample of a search: its class stands beside it.
pub fn word_of(&[x, y, u, v]: &[f64; 4]) -> u32 {
    let block = |position: f64| (position - BLOCK_CENTRE) as u32 / BLOCK as u32;
    let stored = |motion: f64| ((motion * 8.0) as i32 + MOTION_BIAS) as u32;
    block(y) << 26 | block(x) << 20 | stored(v) << 11 | stored(u) << 2
}

/// The sample of a sample word of any field values.
pub fn sample_of(word: u32) -> [f64; 4] {
    let centre = |block: u32| f64::from(BLOCK as u32 * block) + BLOCK_CENTRE;
    let motion = |stored: u32| f64::from(stored as i32 - MOTION_BIAS) / 8.0;
    [centre(word >> 20 & 63), centre(word >> 26), motion(word >> 2 & 511), motion(word >> 11 & 511)]
}

/// A fit after trimming: the last fit made, how many samples it used, and the model on the grid, x first.
#[derive(Clone, Copy, Debug, PartialEq)]
pub struct Trimmed {
    pub model: [f64; 6],
    pub used: usize,
    pub params: [i32; 6],
}

/// The elected type, its model as stored, and the score of that.
#[derive(Clone, Copy, Debug, PartialEq)]
pub struct Elected {
    pub kind: u8,
    pub params: [i32; 6],
    pub score: f64,
}

/// The rows of docs/RULES.md that a fit after trimming may be refused by, of a list that isn't too long.
pub const SINGULAR: u32 = 6;
pub const TOO_FEW: u32 = 15;
pub const NOT_FINITE: u32 = 16;

/// The fewest samples that `candidate_for` takes for a type.
pub fn least_samples(kind: u8) -> usize {
    [4, 6, 8][usize::from(kind) - 1]
}

/// Samples in the Rust's own form, so that a measurement needn't count the copying.
pub struct Samples(Vec<MotionSample>);

impl Samples {
    pub fn new(samples: &[[f64; 4]]) -> Self {
        Self(global_motion::samples(samples.iter().copied()))
    }

    pub fn of_words(words: &[u32]) -> Self {
        Self(global_motion::samples(words.iter().map(|&word| sample_of(word))))
    }

    /// Those of the words whose class is a bit of the set; classes are 0 to 4.
    pub fn named(set: u8, words: &[u32], classes: &[u8]) -> Self {
        let named = words.iter().zip(classes).filter(|&(_, &class)| set >> class & 1 == 1);
        Self(global_motion::samples(named.map(|(&word, _)| sample_of(word))))
    }

    /// Those whose class is a bit of the set; classes are 0 to 4.
    pub fn of_classes(&self, set: u8, classes: &[u8]) -> Self {
        let named = self.0.iter().zip(classes).filter(|&(_, &class)| set >> class & 1 == 1);
        Self(named.map(|(&sample, _)| sample).collect())
    }

    pub fn fit(&self, kind: u8) -> Option<[f64; 6]> {
        assert_ne!(kind, 0, "IDENTITY has no fit");
        global_motion::fit(type_of(kind), &self.0).map(|m| m.map(canonical))
    }

    pub fn score(&self, params: &[i32; 6]) -> f64 {
        canonical(global_motion::score(params, &self.0))
    }

    /// None for too few samples, and where an elimination refuses. The Rust stops at a residual that is not-a-number.
    pub fn trimmed(&self, kind: u8, high: bool) -> Option<Trimmed> {
        assert_ne!(kind, 0, "IDENTITY has no fit");
        let (model, used, params) = global_motion::trimmed(type_of(kind), &self.0, high)?;
        Some(Trimmed { model: model.map(canonical), used, params })
    }

    /// `estimate_global_motion`: a type and its model as stored. The Rust stops at a residual that is not-a-number.
    pub fn estimate(&self, high: bool) -> (u8, [i32; 6]) {
        let (kind, params) = global_motion::elect(&self.0, high);
        (kind.as_u8(), params)
    }

    /// The same with the model's score.
    pub fn elect(&self, high: bool) -> Elected {
        let (kind, params) = self.estimate(high);
        Elected { kind, params, score: self.score(&x_first(kind, params)) }
    }

    pub fn quantize_model(&self, model: &[f64; 6], kind: u8, high: bool) -> [i32; 6] {
        global_motion::quantize(model, type_of(kind), high, &self.0)
    }
}

/// `fit_translation`, `fit_rotzoom` or `fit_affine` for type 1, 2 or 3; none where elimination refuses.
pub fn fit(kind: u8, samples: &[[f64; 4]]) -> Option<[f64; 6]> {
    Samples::new(samples).fit(kind)
}

/// `solve_linear` of three unknowns.
pub fn solve3(a: [[f64; 3]; 3], b: [f64; 3]) -> Option<[f64; 3]> {
    global_motion::solve(a, b).map(|x| x.map(canonical))
}

/// `solve_linear` of four unknowns.
pub fn solve4(a: [[f64; 4]; 4], b: [f64; 4]) -> Option<[f64; 4]> {
    global_motion::solve(a, b).map(|x| x.map(canonical))
}

/// `mean_sq_residual` of `continuous_of_params`.
pub fn score(params: &[i32; 6], samples: &[[f64; 4]]) -> f64 {
    Samples::new(samples).score(params)
}

/// The lines of `quantize_model` that make a grid number of a binary64.
pub fn grid_number(value: f64) -> i32 {
    global_motion::grid_number(value)
}

pub fn quantize_model(model: &[f64; 6], kind: u8, high: bool, samples: &[[f64; 4]]) -> [i32; 6] {
    Samples::new(samples).quantize_model(model, kind, high)
}

/// The lines of `candidate_for` that fit, trim and fit again, through the quantized model.
pub fn trimmed(kind: u8, high: bool, samples: &[[f64; 4]]) -> Option<Trimmed> {
    Samples::new(samples).trimmed(kind, high)
}

/// The same, or the row that refuses. The Rust has no row 16: it stops at a residual that is not-a-number, and goes on
/// with one that is infinite.
pub fn trimmed_or_row(kind: u8, high: bool, samples: &[[f64; 4]]) -> Result<Trimmed, u32> {
    if samples.len() < least_samples(kind) {
        return Err(TOO_FEW);
    }
    let samples = Samples::new(samples);
    let first = samples.fit(kind).ok_or(SINGULAR)?;
    if global_motion::residuals(&first, &samples.0).iter().any(|residual| !residual.is_finite()) {
        return Err(NOT_FINITE);
    }
    samples.trimmed(kind, high).ok_or(SINGULAR)
}

/// The floor on motion energy, below which `estimate_global_motion` asks for no fit.
const MIN_MOTION_ENERGY: f64 = 0.25;

/// `estimate_global_motion`, or row 16 where the trimmed fit of some type has it.
pub fn elect_or_row(high: bool, samples: &[[f64; 4]]) -> Result<Elected, u32> {
    let moves = !(score(&IDENTITY, samples) < MIN_MOTION_ENERGY);
    let ends = |kind| trimmed_or_row(kind, high, samples) == Err(NOT_FINITE);
    if moves && (1..=3).any(ends) {
        return Err(NOT_FINITE);
    }
    Ok(Samples::new(samples).elect(high))
}

/// The fit of a job that doesn't elect, on the grid and as stored, after trimming or of all samples.
pub fn own_model(kind: u8, high: bool, trims: bool, samples: &[[f64; 4]]) -> Result<Elected, u32> {
    let model = match trims {
        true => trimmed(kind, high, samples).map(|trimmed| trimmed.params),
        false => fit(kind, samples).map(|fitted| quantize_model(&fitted, kind, high, samples)),
    };
    let mut params = model.ok_or(SINGULAR)?;
    let score = score(&params, samples);
    if kind == 1 {
        params.swap(0, 1);
    }
    Ok(Elected { kind, params, score })
}

/// A TRANSLATION is stored row first.
fn x_first(kind: u8, params: [i32; 6]) -> [i32; 6] {
    let [p0, p1, rest @ ..] = params;
    let [x, y] = if kind == 1 { [p1, p0] } else { [p0, p1] };
    let [p2, p3, p4, p5] = rest;
    [x, y, p2, p3, p4, p5]
}

pub fn quantize_global_param(kind: u8, high: bool, slot: usize, value: i32) -> i32 {
    frame_obu::quantize_global_param(type_of(kind), high, slot, value)
}

/// The verdict and alpha, beta, gamma, delta of a codable ROTZOOM or AFFINE model, by a writing of clause 7.11.3.6.
pub fn shear(params: &[i32; 6]) -> Option<(bool, [i32; 4])> {
    inter_pred::setup_shear(*params)
        .map(|shear| (shear.warp_valid, [shear.alpha, shear.beta, shear.gamma, shear.delta]))
}

/// `encode_inter_global_motion` behind `start` zero bits: the bytes, padded with zeros, and the number of bits behind
/// the start.
pub fn write_header(types: &[u8; 7], params: &Models, high: bool, prior: &Models, start: usize) -> (Vec<u8>, usize) {
    let mut gm = GlobalMotionParams::identity();
    gm.short_circuited = false;
    gm.gm_type[1..].copy_from_slice(&types.map(type_of));
    gm.gm_params[1..].copy_from_slice(params);
    let mut writer = BitWriter::new();
    (0..start).for_each(|_| writer.write_bit(0));
    frame_obu::write(&mut writer, &gm, high, &from_reference_0(prior));
    let bits = writer.bit_position() - start;
    (writer.finish(), bits)
}

/// `read_global_motion_params` from bit `at`: types, models and bits consumed; none if the bytes end first.
pub fn read_header(bytes: &[u8], at: usize, high: bool, prior: &Models) -> Option<([u8; 7], Models, usize)> {
    read(bytes, at, false, high, prior)
}

/// The same where the frame is intra.
pub fn read_key_frame(bytes: &[u8], at: usize) -> ([u8; 7], Models, usize) {
    read(bytes, at, true, false, &[IDENTITY; 7]).expect("no bit is read")
}

fn read(bytes: &[u8], at: usize, intra: bool, high: bool, prior: &Models) -> Option<([u8; 7], Models, usize)> {
    let mut reader = BitReader::at(bytes, at);
    let gm = uncompressed_header_tail::read(&mut reader, intra, high, &from_reference_0(prior)).ok()?;
    let types = std::array::from_fn(|i| gm.gm_type[i + 1].as_u8());
    let params = std::array::from_fn(|i| gm.gm_params[i + 1]);
    Some((types, params, reader.position() - at))
}

/// `write_global_param`: the bits of one coefficient, as digits.
pub fn coefficient(kind: u8, high: bool, slot: usize, prior: i32, value: i32) -> String {
    let mut writer = BitWriter::new();
    frame_obu::write_coefficient(&mut writer, type_of(kind), high, slot, prior, value);
    let bits = writer.bit_position();
    let bytes = writer.finish();
    let bit = |i: usize| if bytes[i / 8] >> (7 - i % 8) & 1 == 1 { '1' } else { '0' };
    (0..bits).map(bit).collect()
}

fn type_of(kind: u8) -> WarpModelType {
    match kind {
        0 => WarpModelType::Identity,
        1 => WarpModelType::Translation,
        2 => WarpModelType::RotZoom,
        3 => WarpModelType::Affine,
        _ => panic!("a type is 0 to 3, not {kind}"),
    }
}

/// The Rust's arrays begin with reference 0, which no header carries.
fn from_reference_0(models: &Models) -> [[i32; 6]; TOTAL_REFS_PER_FRAME] {
    let mut all = [IDENTITY; TOTAL_REFS_PER_FRAME];
    all[1..].copy_from_slice(models);
    all
}
