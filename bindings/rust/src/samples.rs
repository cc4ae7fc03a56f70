//! The same over samples of any four numbers, all of them or those of named classes (docs/RULES.md, 'Sample').

use crate::by_class::of_classes;
use crate::codes::byte;
use crate::fits::{elected, fitted, trimmed, trimmed_model};
use crate::refusal::judged;
use crate::{
    ClassSet, Code, Elected, Fitted, GmType, Model, MotionSample, Precision, Refusal, Trimmed, TrimmedModel, raw,
};

/// As [`crate::fit_translation`], over samples of any four numbers.
///
/// # Errors
///
/// [`Refusal::TooLarge`].
///
/// ```
/// let sample = belt::MotionSample { x: 0.1, y: 0.2, u: f64::INFINITY, v: -3.0 };
/// let fitted = belt::fit_translation_samples(&[sample])?;
/// assert_eq!(fitted.numbers[..2], [f64::INFINITY, -3.0]);
/// # Ok::<(), belt::Refusal>(())
/// ```
pub fn fit_translation_samples(samples: &[MotionSample]) -> Result<Fitted, Refusal> {
    fitted(GmType::Translation, raw::fit_translation_samples(samples))
}

/// As [`crate::fit_rotzoom`], over samples of any four numbers.
///
/// # Errors
///
/// [`Refusal::TooLarge`], [`Refusal::Singular`].
///
/// ```
/// use belt::MotionSample;
///
/// // what lies 10 pels to the right moves by one pel more: a zoom of 1.1
/// let samples = [0.0, 10.0].map(|x| MotionSample { x, y: 0.0, u: x / 10.0, v: 0.0 });
/// assert!((belt::fit_rotzoom_samples(&samples)?.numbers[2] - 1.1).abs() < 1e-12);
/// # Ok::<(), belt::Refusal>(())
/// ```
pub fn fit_rotzoom_samples(samples: &[MotionSample]) -> Result<Fitted, Refusal> {
    fitted(GmType::Rotzoom, raw::fit_rotzoom_samples(samples))
}

/// As [`crate::fit_affine`], over samples of any four numbers.
///
/// # Errors
///
/// [`Refusal::TooLarge`], [`Refusal::Singular`].
///
/// ```
/// use belt::{MotionSample, Refusal};
///
/// // what lies 10 pels further down moves by one pel to the right
/// let samples = [(0.0, 0.0), (10.0, 0.0), (0.0, 10.0)].map(|(x, y)| MotionSample { x, y, u: y / 10.0, v: 0.0 });
/// assert!((belt::fit_affine_samples(&samples)?.numbers[3] - 0.1).abs() < 1e-12);
/// assert_eq!(belt::fit_affine_samples(&[]), Err(Refusal::Singular));
/// # Ok::<(), Refusal>(())
/// ```
pub fn fit_affine_samples(samples: &[MotionSample]) -> Result<Fitted, Refusal> {
    fitted(GmType::Affine, raw::fit_affine_samples(samples))
}

/// As [`crate::quantize_model`], over samples of any four numbers.
///
/// # Errors
///
/// [`Refusal::TooLarge`], [`Refusal::NoSuchCode`].
///
/// ```
/// use belt::{MotionSample, Precision};
///
/// let samples = [MotionSample { x: 0.1, y: 0.2, u: 0.2, v: 0.0 }];
/// let fitted = belt::fit_translation_samples(&samples)?;
/// assert_eq!(belt::quantize_model_samples(&fitted, Precision::High, &samples)?.0[0], 16384);
/// # Ok::<(), belt::Refusal>(())
/// ```
pub fn quantize_model_samples(
    fitted: &Fitted,
    precision: impl Code<Precision>,
    samples: &[MotionSample],
) -> Result<Model, Refusal> {
    let model = raw::ToQuantize { gm_type: fitted.gm_type, flag: byte(precision), numbers: fitted.numbers };
    let answer = raw::quantize_model_samples(samples, model);
    judged(answer.refusal, answer.params)
}

/// As [`crate::mean_sq_residual`], over samples of any four numbers.
///
/// # Errors
///
/// [`Refusal::TooLarge`].
///
/// ```
/// use belt::{Model, MotionSample};
///
/// let samples = [MotionSample { x: 0.1, y: 0.2, u: 3.0, v: 4.0 }];
/// assert_eq!(belt::mean_sq_residual_samples(&Model::IDENTITY, &samples), Ok(25.0));
/// ```
pub fn mean_sq_residual_samples(model: &Model, samples: &[MotionSample]) -> Result<f64, Refusal> {
    let answer = raw::mean_sq_residual_samples(samples, raw::Params { numbers: model.0 });
    judged(answer.refusal, answer.score)
}

/// As [`crate::fit_trimmed`], over samples of any four numbers.
///
/// # Errors
///
/// [`Refusal::TooLarge`], [`Refusal::NoSuchCode`], [`Refusal::TooFew`], [`Refusal::Singular`] of either fit,
/// [`Refusal::NotFinite`] where the square of a sample's distance from the first fit isn't finite.
///
/// ```
/// use belt::{GmType, MotionSample, Refusal};
///
/// let moving = |u| MotionSample { x: 0.1, y: 0.2, u, v: 0.0 };
/// let samples = [10.0, 0.0, 0.0, 0.0, 0.0].map(moving);
/// assert_eq!(belt::fit_trimmed_samples(GmType::Translation, &samples)?.used, 4);
/// let far = [1e200, 0.0, 0.0, 0.0].map(moving);
/// assert_eq!(belt::fit_trimmed_samples(GmType::Translation, &far), Err(Refusal::NotFinite));
/// # Ok::<(), Refusal>(())
/// ```
pub fn fit_trimmed_samples(gm_type: impl Code<GmType>, samples: &[MotionSample]) -> Result<Trimmed, Refusal> {
    trimmed(gm_type, raw::fit_trimmed_samples(samples, byte(gm_type)))
}

/// The same on the grid of a precision.
///
/// # Errors
///
/// As [`fit_trimmed_samples`]; the precision is judged with the type.
///
/// ```
/// use belt::{GmType, MotionSample, Precision};
///
/// let samples = [10.0, 0.2, 0.2, 0.2, 0.2].map(|u| MotionSample { x: 0.1, y: 0.2, u, v: 0.0 });
/// let trimmed = belt::quantize_trimmed_samples(GmType::Translation, Precision::Low, &samples)?;
/// assert_eq!((trimmed.model.0[0], trimmed.used), (16384, 4));
/// # Ok::<(), belt::Refusal>(())
/// ```
pub fn quantize_trimmed_samples(
    gm_type: impl Code<GmType>,
    precision: impl Code<Precision>,
    samples: &[MotionSample],
) -> Result<TrimmedModel, Refusal> {
    let codes = raw::ToTrim { gm_type: byte(gm_type), flag: byte(precision) };
    trimmed_model(raw::quantize_trimmed_samples(samples, codes))
}

/// As [`crate::elect`], over samples of any four numbers.
///
/// # Errors
///
/// [`Refusal::TooLarge`], [`Refusal::NoSuchCode`], [`Refusal::NotFinite`] where a type's trimmed fit has it.
///
/// ```
/// use belt::{GmType, MotionSample, Precision, Refusal};
///
/// let moving = |u| MotionSample { x: 0.5, y: 0.25, u, v: 0.0 };
/// let elected = belt::elect_samples(Precision::High, &[2.0, 2.1, 1.9, 2.0].map(moving))?;
/// assert_eq!((GmType::try_from(elected.gm_type)?, elected.model.0[1]), (GmType::Translation, 131072));
/// let none = [f64::NAN, 2.0, 2.0, 2.0].map(moving);
/// assert_eq!(belt::elect_samples(Precision::High, &none), Err(Refusal::NotFinite));
/// # Ok::<(), Refusal>(())
/// ```
pub fn elect_samples(precision: impl Code<Precision>, samples: &[MotionSample]) -> Result<Elected, Refusal> {
    elected(raw::elect_samples(samples, byte(precision)))
}

/// As [`crate::fit_by_class`], over samples of any four numbers.
///
/// # Errors
///
/// As [`crate::fit_by_class`].
///
/// ```
/// use belt::{ClassSet, FIBRE, FILM, GmType, MotionSample, Refusal};
///
/// let samples = [10.0, f64::NAN, 10.0].map(|u| MotionSample { x: 0.5, y: 0.25, u, v: 0.0 });
/// let fit = |set| {
///     belt::fit_samples_by_class(set, GmType::Translation, &samples, &[FIBRE, FILM, FIBRE])
///         .map(|fitted| fitted.numbers[0])
/// };
/// assert_eq!(fit(ClassSet::of(&[FIBRE])), Ok(10.0));
/// assert!(fit(ClassSet::ALL)?.is_nan());
/// assert_eq!(fit(ClassSet::of(&[])), Err(Refusal::NoClass));
/// # Ok::<(), Refusal>(())
/// ```
pub fn fit_samples_by_class(
    set: ClassSet,
    gm_type: impl Code<GmType>,
    samples: &[MotionSample],
    classes: &[u8],
) -> Result<Fitted, Refusal> {
    let answer = raw::fit_samples_by_class(set.bits(), byte(gm_type), samples, classes);
    of_classes(fitted(gm_type, answer), samples, classes)
}

/// As [`crate::quantize_by_class`], over samples of any four numbers.
///
/// # Errors
///
/// As [`crate::quantize_by_class`].
///
/// ```
/// use belt::{ClassSet, FILM, GmType, METAL, MotionSample, Precision};
///
/// let samples = [0.2, 10.0].map(|u| MotionSample { x: 0.5, y: 0.25, u, v: 0.0 });
/// let (metal, classes) = (ClassSet::of(&[METAL]), [METAL, FILM]);
/// let fitted = belt::fit_samples_by_class(metal, GmType::Translation, &samples, &classes)?;
/// let model = belt::quantize_samples_by_class(metal, &fitted, Precision::Low, &samples, &classes)?;
/// assert_eq!(model.0[0], 16384);
/// # Ok::<(), belt::Refusal>(())
/// ```
pub fn quantize_samples_by_class(
    set: ClassSet,
    fitted: &Fitted,
    precision: impl Code<Precision>,
    samples: &[MotionSample],
    classes: &[u8],
) -> Result<Model, Refusal> {
    let model = raw::ToQuantize { gm_type: fitted.gm_type, flag: byte(precision), numbers: fitted.numbers };
    let answer = raw::quantize_samples_by_class(set.bits(), model, samples, classes);
    of_classes(judged(answer.refusal, answer.params), samples, classes)
}

/// As [`crate::score_by_class`], over samples of any four numbers.
///
/// # Errors
///
/// As [`crate::score_by_class`].
///
/// ```
/// use belt::{ClassSet, FILM, METAL, Model, MotionSample};
///
/// let samples = [3.0, 10.0].map(|u| MotionSample { x: 0.5, y: 0.25, u, v: 4.0 });
/// let score = |set| belt::score_samples_by_class(set, &Model::IDENTITY, &samples, &[METAL, FILM]);
/// assert_eq!(score(ClassSet::of(&[METAL])), Ok(25.0));
/// ```
pub fn score_samples_by_class(
    set: ClassSet,
    model: &Model,
    samples: &[MotionSample],
    classes: &[u8],
) -> Result<f64, Refusal> {
    let answer = raw::score_samples_by_class(set.bits(), raw::Params { numbers: model.0 }, samples, classes);
    of_classes(judged(answer.refusal, answer.score), samples, classes)
}

/// As [`crate::fit_trimmed_by_class`], over samples of any four numbers.
///
/// # Errors
///
/// As [`crate::fit_trimmed_by_class`]; [`Refusal::NotFinite`] as for [`fit_trimmed_samples`], by the samples named.
///
/// ```
/// use belt::{ClassSet, FILM, GmType, METAL, MotionSample};
///
/// let samples = [10.0, 0.0, 0.0, 0.0, 0.0, f64::NAN].map(|u| MotionSample { x: 0.1, y: 0.2, u, v: 0.0 });
/// let classes = [METAL, METAL, METAL, METAL, METAL, FILM];
/// let metal = ClassSet::of(&[METAL]);
/// let trimmed = belt::fit_trimmed_samples_by_class(metal, GmType::Translation, &samples, &classes)?;
/// assert_eq!((trimmed.fitted.numbers[0], trimmed.used), (0.0, 4));
/// # Ok::<(), belt::Refusal>(())
/// ```
pub fn fit_trimmed_samples_by_class(
    set: ClassSet,
    gm_type: impl Code<GmType>,
    samples: &[MotionSample],
    classes: &[u8],
) -> Result<Trimmed, Refusal> {
    let answer = raw::fit_trimmed_samples_by_class(set.bits(), byte(gm_type), samples, classes);
    of_classes(trimmed(gm_type, answer), samples, classes)
}

/// The same on the grid of a precision.
///
/// # Errors
///
/// As [`fit_trimmed_samples_by_class`]; the precision is judged with the type.
///
/// ```
/// use belt::{ClassSet, FILM, GmType, METAL, MotionSample, Precision};
///
/// let samples = [10.0, 0.2, 0.2, 0.2, 0.2, f64::NAN].map(|u| MotionSample { x: 0.1, y: 0.2, u, v: 0.0 });
/// let (metal, classes) = (ClassSet::of(&[METAL]), [METAL, METAL, METAL, METAL, METAL, FILM]);
/// let trimmed =
///     belt::quantize_trimmed_samples_by_class(metal, GmType::Translation, Precision::Low, &samples, &classes)?;
/// assert_eq!((trimmed.model.0[0], trimmed.used), (16384, 4));
/// # Ok::<(), belt::Refusal>(())
/// ```
pub fn quantize_trimmed_samples_by_class(
    set: ClassSet,
    gm_type: impl Code<GmType>,
    precision: impl Code<Precision>,
    samples: &[MotionSample],
    classes: &[u8],
) -> Result<TrimmedModel, Refusal> {
    let codes = raw::ToTrim { gm_type: byte(gm_type), flag: byte(precision) };
    let answer = raw::quantize_trimmed_samples_by_class(set.bits(), codes, samples, classes);
    of_classes(trimmed_model(answer), samples, classes)
}

/// As [`crate::elect_by_class`], over samples of any four numbers.
///
/// # Errors
///
/// As [`crate::elect_by_class`]; [`Refusal::NotFinite`] where a type's trimmed fit has it.
///
/// ```
/// use belt::{ClassSet, FILM, GmType, METAL, MotionSample, Precision};
///
/// let samples = [2.0, 2.1, 1.9, 2.0, f64::NAN].map(|u| MotionSample { x: 0.5, y: 0.25, u, v: 0.0 });
/// let classes = [METAL, METAL, METAL, METAL, FILM];
/// let elected = belt::elect_samples_by_class(ClassSet::of(&[METAL]), Precision::High, &samples, &classes)?;
/// assert_eq!(GmType::try_from(elected.gm_type)?, GmType::Translation);
/// # Ok::<(), belt::Refusal>(())
/// ```
pub fn elect_samples_by_class(
    set: ClassSet,
    precision: impl Code<Precision>,
    samples: &[MotionSample],
    classes: &[u8],
) -> Result<Elected, Refusal> {
    of_classes(elected(raw::elect_samples_by_class(set.bits(), byte(precision), samples, classes)), samples, classes)
}
