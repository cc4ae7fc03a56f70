//! Fits, grid, score, trimming and election over sample words (docs/RULES.md, 'Fits and score', 'Trimming', 'Election').

use crate::codes::byte;
use crate::refusal::judged;
use crate::{Code, GmType, Model, Precision, Refusal, StoredModel, raw};

/// A fitted model: its type and two, four or six numbers, zeros after them.
#[derive(Clone, Copy, Debug, PartialEq)]
pub struct Fitted {
    /// The type's code, 1 to 3: a [`GmType`].
    pub gm_type: u8,
    /// The numbers, in pels, x first.
    pub numbers: [f64; 6],
}

/// A fit after trimming ('Trimming'): the last fit made, and how many samples it used.
#[derive(Clone, Copy, Debug, PartialEq)]
pub struct Trimmed {
    /// The last fit made.
    pub fitted: Fitted,
    /// How many samples it used.
    pub used: usize,
}

/// A fit after trimming on the grid ('Trimming').
#[derive(Clone, Copy, Debug, PartialEq, Eq)]
pub struct TrimmedModel {
    /// The model, its translation fitted again to the samples used.
    pub model: Model,
    /// How many samples the last fit used.
    pub used: usize,
}

/// What an election answers ('Election').
#[derive(Clone, Copy, Debug, PartialEq)]
pub struct Elected {
    /// The elected type's code, 0 to 3: a [`GmType`].
    pub gm_type: u8,
    /// Its model.
    pub model: StoredModel,
    /// The model's mean squared residual over all samples, in square pels; of the identity the motion's energy.
    pub score: f64,
}

/// The translation that fits up to 4,096 words ('Fits and score'); not-a-numbers for none.
///
/// # Errors
///
/// [`Refusal::TooLarge`].
///
/// ```
/// // two blocks that move by one pel and by two to the right
/// let words = [231, 239].map(|u| 223 << 11 | u << 2);
/// assert_eq!(belt::fit_translation(&words)?.numbers, [1.5, 0.0, 0.0, 0.0, 0.0, 0.0]);
/// assert!(belt::fit_translation(&[])?.numbers[0].is_nan());
/// # Ok::<(), belt::Refusal>(())
/// ```
pub fn fit_translation(words: &[u32]) -> Result<Fitted, Refusal> {
    fitted(GmType::Translation, raw::fit_translation(words))
}

/// The rotation-zoom that fits up to 4,096 words ('Fits and score').
///
/// # Errors
///
/// [`Refusal::TooLarge`], [`Refusal::Singular`].
///
/// ```
/// // two blocks side by side, of which the right one moves by two pels to the right: a zoom of 1/8
/// let words = [(0, 223), (1, 239)].map(|(column, u)| column << 20 | 223 << 11 | u << 2);
/// let fitted = belt::fit_rotzoom(&words)?;
/// assert!((fitted.numbers[2] - 1.125).abs() < 1e-12);
/// assert_eq!(belt::fit_rotzoom(&words[..1]), Err(belt::Refusal::Singular));
/// # Ok::<(), belt::Refusal>(())
/// ```
pub fn fit_rotzoom(words: &[u32]) -> Result<Fitted, Refusal> {
    fitted(GmType::Rotzoom, raw::fit_rotzoom(words))
}

/// The affine model that fits up to 4,096 words ('Fits and score').
///
/// # Errors
///
/// [`Refusal::TooLarge`], [`Refusal::Singular`].
///
/// ```
/// // three blocks in a corner; the lower one moves by two pels to the right
/// let words = [(0, 0, 223), (0, 1, 223), (1, 0, 239)].map(|(row, column, u)| row << 26 | column << 20 | 223 << 11 | u << 2);
/// let fitted = belt::fit_affine(&words)?;
/// assert!((fitted.numbers[3] - 0.125).abs() < 1e-12);
/// assert_eq!(belt::fit_affine(&words[..2]), Err(belt::Refusal::Singular));
/// # Ok::<(), belt::Refusal>(())
/// ```
pub fn fit_affine(words: &[u32]) -> Result<Fitted, Refusal> {
    fitted(GmType::Affine, raw::fit_affine(words))
}

pub(crate) fn fitted(gm_type: impl Code<GmType>, answer: raw::FitAnswer) -> Result<Fitted, Refusal> {
    judged(answer.refusal, Fitted { gm_type: byte(gm_type), numbers: answer.numbers })
}

/// The fit of a type after trimming ('Trimming'): words that lie far from a first fit are dropped, and the rest is
/// fitted again if it is enough.
///
/// # Errors
///
/// [`Refusal::TooLarge`], [`Refusal::NoSuchCode`], [`Refusal::TooFew`], [`Refusal::Singular`] of either fit,
/// [`Refusal::NotFinite`], of which no case with words is known (`docs/DECISIONS.md`, 'The job').
///
/// ```
/// use belt::{GmType, Refusal};
///
/// // four blocks at rest and one that moves by ten pels
/// let words = [223, 223, 223, 223, 303].map(|u| 223 << 11 | u << 2);
/// let trimmed = belt::fit_trimmed(GmType::Translation, &words)?;
/// assert_eq!((trimmed.fitted.numbers[0], trimmed.used), (0.0, 4));
/// assert_eq!(belt::fit_translation(&words)?.numbers[0], 2.0);
/// assert_eq!(belt::fit_trimmed(GmType::Translation, &words[..3]), Err(Refusal::TooFew));
/// assert_eq!(belt::fit_trimmed(GmType::Identity, &words), Err(Refusal::NoSuchCode));
/// # Ok::<(), Refusal>(())
/// ```
pub fn fit_trimmed(gm_type: impl Code<GmType>, words: &[u32]) -> Result<Trimmed, Refusal> {
    trimmed(gm_type, raw::fit_trimmed(byte(gm_type), words))
}

pub(crate) fn trimmed(gm_type: impl Code<GmType>, answer: raw::Trimmed) -> Result<Trimmed, Refusal> {
    let fitted = Fitted { gm_type: byte(gm_type), numbers: answer.numbers };
    judged(answer.refusal, Trimmed { fitted, used: answer.used as usize })
}

/// The same on the grid of a precision.
///
/// # Errors
///
/// As [`fit_trimmed`]; the precision is judged with the type.
///
/// ```
/// use belt::{GmType, Precision};
///
/// // four blocks that move by an eighth of a pel and one by ten pels
/// let words = [224, 224, 224, 224, 303].map(|u| 223 << 11 | u << 2);
/// let trimmed = belt::quantize_trimmed(GmType::Translation, Precision::High, &words)?;
/// assert_eq!((trimmed.model.0[0], trimmed.used), (8192, 4));
/// # Ok::<(), belt::Refusal>(())
/// ```
pub fn quantize_trimmed(
    gm_type: impl Code<GmType>,
    precision: impl Code<Precision>,
    words: &[u32],
) -> Result<TrimmedModel, Refusal> {
    trimmed_model(raw::quantize_trimmed(byte(gm_type), byte(precision), words))
}

pub(crate) fn trimmed_model(answer: raw::TrimmedModel) -> Result<TrimmedModel, Refusal> {
    judged(answer.refusal, TrimmedModel { model: answer.params, used: answer.used as usize })
}

/// The election of a type ('Election'): each type is fitted after trimming; of those that leave at most a quarter of the
/// motion's mean square, the energy, the lowest is elected, or a higher one that is clearly better. The identity if there
/// is none, if the energy is below 0.25 square pels, and for fewer than 4 words.
///
/// # Errors
///
/// [`Refusal::TooLarge`], [`Refusal::NoSuchCode`], [`Refusal::NotFinite`], of which no case with words is known
/// (`docs/DECISIONS.md`, 'The job').
///
/// ```
/// use belt::{GmType, Precision};
///
/// // four blocks that move by half a pel, and by three eighths
/// let [half, less] = [4, 3].map(|u| [0, 1, 2, 3].map(|column| column << 20 | 223 << 11 | (223 + u) << 2));
/// let elected = belt::elect(Precision::High, &half)?;
/// assert_eq!((GmType::try_from(elected.gm_type)?, elected.score), (GmType::Translation, 0.0));
/// assert_eq!(elected.model.0[..2], [0, 32768]);
/// let still = belt::elect(Precision::High, &less)?;
/// assert_eq!((GmType::try_from(still.gm_type)?, still.score), (GmType::Identity, 0.140625));
/// # Ok::<(), belt::Refusal>(())
/// ```
pub fn elect(precision: impl Code<Precision>, words: &[u32]) -> Result<Elected, Refusal> {
    elected(raw::elect(byte(precision), words))
}

pub(crate) fn elected(answer: raw::Elected) -> Result<Elected, Refusal> {
    judged(answer.refusal, Elected { gm_type: answer.gm_type, model: answer.params, score: answer.score })
}

/// The fitted model on the grid ('Fits and score'); its translation is fitted again to the words.
///
/// # Errors
///
/// [`Refusal::TooLarge`], [`Refusal::NoSuchCode`].
///
/// ```
/// use belt::{Fitted, Model, Precision};
///
/// let words = [231, 239].map(|u| 223 << 11 | u << 2);
/// let model = belt::quantize_model(&belt::fit_translation(&words)?, Precision::High, &words)?;
/// assert_eq!(model, Model([98304, 0, 65536, 0, 0, 65536]));
/// let still = Fitted { gm_type: 1, numbers: [0.0; 6] };
/// assert_eq!(belt::quantize_model(&still, Precision::High, &[]), Ok(Model::IDENTITY));
/// # Ok::<(), belt::Refusal>(())
/// ```
pub fn quantize_model(fitted: &Fitted, precision: impl Code<Precision>, words: &[u32]) -> Result<Model, Refusal> {
    let answer = raw::quantize_model(fitted.gm_type, &fitted.numbers, byte(precision), words);
    judged(answer.refusal, answer.params)
}

/// The mean squared residual of a model over up to 4,096 words ('Fits and score'), in square pels; 0.0 for none.
///
/// # Errors
///
/// [`Refusal::TooLarge`].
///
/// ```
/// let words = [231, 239].map(|u| 223 << 11 | u << 2);
/// assert_eq!(belt::mean_sq_residual(&belt::Model::IDENTITY, &words), Ok(2.5));
/// assert_eq!(belt::mean_sq_residual(&belt::Model::IDENTITY, &[]), Ok(0.0));
/// ```
pub fn mean_sq_residual(model: &Model, words: &[u32]) -> Result<f64, Refusal> {
    let answer = raw::mean_sq_residual(&model.0, words);
    judged(answer.refusal, answer.score)
}

/// The codable number nearest to a value ('Grid'), for a type and slot 0 to 5.
///
/// # Errors
///
/// [`Refusal::NoSuchCode`], [`Refusal::NoSuchSlot`].
///
/// ```
/// use belt::{GmType, Precision, Refusal};
///
/// assert_eq!(belt::quantize_global_param(GmType::Affine, Precision::Low, 2, 65537), Ok(65538));
/// assert_eq!(belt::quantize_global_param(GmType::Affine, Precision::Low, 6, 0), Err(Refusal::NoSuchSlot));
/// ```
pub fn quantize_global_param(
    gm_type: impl Code<GmType>,
    precision: impl Code<Precision>,
    slot: u8,
    value: i32,
) -> Result<i32, Refusal> {
    let answer = raw::quantize_global_param(byte(gm_type), byte(precision), slot, value);
    judged(answer.refusal, answer.value)
}

/// The root of a number, correctly rounded ('Root'). A zero, plus infinity and a not-a-number are their own roots;
/// a number below 0 has none, which is a not-a-number.
///
/// ```
/// assert_eq!(belt::root(2.0).to_bits(), 0x3FF6_A09E_667F_3BCD);
/// assert!(belt::root(-1.0).is_nan());
/// ```
#[must_use]
pub fn root(x: f64) -> f64 {
    raw::root(x)
}
