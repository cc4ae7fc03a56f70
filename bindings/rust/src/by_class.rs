//! The same over the words of named classes alone (docs/RULES.md, 'Sets of classes').

use crate::codes::byte;
use crate::fits::{elected, fitted, trimmed, trimmed_model};
use crate::refusal::judged;
use crate::{ClassSet, Code, Elected, Fitted, GmType, Length, Model, Precision, Refusal, Trimmed, TrimmedModel, raw};

/// An answer of a call by class, where row 2 says which list is wrong.
pub(crate) fn of_classes<T, S>(answer: Result<T, Refusal>, samples: &[S], classes: &[u8]) -> Result<T, Refusal> {
    answer.map_err(|row| match row {
        Refusal::WrongLength(_) => Refusal::WrongLength(Length::of("classes", classes, samples.len())),
        row => row,
    })
}

/// The fit of a type, 1 to 3, by a set of classes ('Sets of classes'): of the words whose class is named, in their order.
/// `classes` has a class for each word; the words' own class bits play no part. Naming all five is the fit of every word.
///
/// # Errors
///
/// [`Refusal::TooLarge`], [`Refusal::WrongLength`], [`Refusal::NoSuchCode`], [`Refusal::NoClass`], [`Refusal::Singular`].
/// The first three judge the whole list.
///
/// ```
/// use belt::{ClassSet, FIBRE, FILM, GmType, Refusal};
///
/// // four blocks of fibre that move by ten pels to the right, and four of film by five pels up
/// let fibre = [0, 1, 2, 3].map(|column: u32| column << 20 | 223 << 11 | 303 << 2);
/// let film = [0, 1, 2, 3].map(|column: u32| 1 << 26 | column << 20 | 183 << 11 | 223 << 2);
/// let (words, classes) = ([fibre, film].concat(), [[FIBRE; 4], [FILM; 4]].concat());
/// let fit = |set| {
///     belt::fit_by_class(set, GmType::Translation, &words, &classes).map(|fitted| fitted.numbers[..2].to_vec())
/// };
/// assert_eq!(fit(ClassSet::of(&[FIBRE])), Ok(vec![10.0, 0.0]));
/// assert_eq!(fit(ClassSet::of(&[FILM])), Ok(vec![0.0, -5.0]));
/// assert_eq!(fit(ClassSet::ALL), Ok(vec![5.0, -2.5]));
/// assert_eq!(fit(ClassSet::of(&[])), Err(Refusal::NoClass));
/// assert_eq!(fit(ClassSet::of(&[FIBRE, 5])), Err(Refusal::NoSuchCode));
/// ```
pub fn fit_by_class(
    set: ClassSet,
    gm_type: impl Code<GmType>,
    words: &[u32],
    classes: &[u8],
) -> Result<Fitted, Refusal> {
    of_classes(fitted(gm_type, raw::fit_by_class(set.bits(), byte(gm_type), words, classes)), words, classes)
}

/// As [`crate::quantize_model`], by a set of classes ('Sets of classes'): the translation is fitted again to the words
/// named.
///
/// # Errors
///
/// [`Refusal::TooLarge`], [`Refusal::WrongLength`], [`Refusal::NoSuchCode`], [`Refusal::NoClass`].
///
/// ```
/// use belt::{ClassSet, FILM, GmType, METAL, Precision};
///
/// // a block of metal that moves by one pel to the right, and one of film by ten
/// let (words, classes) = ([231, 303].map(|u| 223 << 11 | u << 2), [METAL, FILM]);
/// let metal = ClassSet::of(&[METAL]);
/// let fitted = belt::fit_by_class(metal, GmType::Translation, &words, &classes)?;
/// assert_eq!(belt::quantize_by_class(metal, &fitted, Precision::High, &words, &classes)?.0[0], 65536);
/// # Ok::<(), belt::Refusal>(())
/// ```
pub fn quantize_by_class(
    set: ClassSet,
    fitted: &Fitted,
    precision: impl Code<Precision>,
    words: &[u32],
    classes: &[u8],
) -> Result<Model, Refusal> {
    let answer = raw::quantize_by_class(set.bits(), fitted.gm_type, &fitted.numbers, byte(precision), words, classes);
    of_classes(judged(answer.refusal, answer.params), words, classes)
}

/// As [`crate::mean_sq_residual`], by a set of classes ('Sets of classes'): over the words named; 0.0 for none.
///
/// # Errors
///
/// [`Refusal::TooLarge`], [`Refusal::WrongLength`], [`Refusal::NoSuchCode`], [`Refusal::NoClass`].
///
/// ```
/// use belt::{ClassSet, FIBRE, FILM, METAL, Model};
///
/// let (words, classes) = ([231, 303].map(|u| 223 << 11 | u << 2), [METAL, FILM]);
/// let score = |class| belt::score_by_class(ClassSet::of(&[class]), &Model::IDENTITY, &words, &classes);
/// assert_eq!([METAL, FILM, FIBRE].map(score), [Ok(1.0), Ok(100.0), Ok(0.0)]);
/// ```
pub fn score_by_class(set: ClassSet, model: &Model, words: &[u32], classes: &[u8]) -> Result<f64, Refusal> {
    let answer = raw::score_by_class(set.bits(), &model.0, words, classes);
    of_classes(judged(answer.refusal, answer.score), words, classes)
}

/// As [`crate::fit_trimmed`], by a set of classes ('Sets of classes'): of the words named, and the least number is
/// theirs.
///
/// # Errors
///
/// [`Refusal::TooLarge`], [`Refusal::WrongLength`], [`Refusal::NoSuchCode`], [`Refusal::NoClass`], [`Refusal::TooFew`],
/// [`Refusal::Singular`] of either fit, [`Refusal::NotFinite`], of which no case with words is known.
///
/// ```
/// use belt::{ClassSet, FILM, GmType, METAL, Refusal};
///
/// // five blocks of metal, one of them far off, and one of film
/// let words = [223, 223, 223, 223, 303, 300].map(|u| 223 << 11 | u << 2);
/// let classes = [METAL, METAL, METAL, METAL, METAL, FILM];
/// let fit = |class| belt::fit_trimmed_by_class(ClassSet::of(&[class]), GmType::Translation, &words, &classes);
/// assert_eq!((fit(METAL)?.fitted.numbers[0], fit(METAL)?.used), (0.0, 4));
/// assert_eq!(fit(FILM), Err(Refusal::TooFew));
/// # Ok::<(), Refusal>(())
/// ```
pub fn fit_trimmed_by_class(
    set: ClassSet,
    gm_type: impl Code<GmType>,
    words: &[u32],
    classes: &[u8],
) -> Result<Trimmed, Refusal> {
    of_classes(trimmed(gm_type, raw::fit_trimmed_by_class(set.bits(), byte(gm_type), words, classes)), words, classes)
}

/// The same on the grid of a precision.
///
/// # Errors
///
/// As [`fit_trimmed_by_class`]; the precision is judged with the type.
///
/// ```
/// use belt::{ClassSet, FILM, GmType, METAL, Precision};
///
/// let words = [224, 224, 224, 224, 303, 300].map(|u| 223 << 11 | u << 2);
/// let classes = [METAL, METAL, METAL, METAL, METAL, FILM];
/// let metal = ClassSet::of(&[METAL]);
/// let trimmed = belt::quantize_trimmed_by_class(metal, GmType::Translation, Precision::High, &words, &classes)?;
/// assert_eq!((trimmed.model.0[0], trimmed.used), (8192, 4));
/// # Ok::<(), belt::Refusal>(())
/// ```
pub fn quantize_trimmed_by_class(
    set: ClassSet,
    gm_type: impl Code<GmType>,
    precision: impl Code<Precision>,
    words: &[u32],
    classes: &[u8],
) -> Result<TrimmedModel, Refusal> {
    let answer = raw::quantize_trimmed_by_class(set.bits(), byte(gm_type), byte(precision), words, classes);
    of_classes(trimmed_model(answer), words, classes)
}

/// As [`crate::elect`], by a set of classes ('Sets of classes'): among the words named, whose energy and score it takes.
/// The identity for fewer than 4 of them.
///
/// # Errors
///
/// [`Refusal::TooLarge`], [`Refusal::WrongLength`], [`Refusal::NoSuchCode`], [`Refusal::NoClass`], [`Refusal::NotFinite`],
/// of which no case with words is known.
///
/// ```
/// use belt::{ClassSet, FILM, GmType, METAL, Precision};
///
/// // four blocks of metal that move by one pel to the right, and four of film anyhow
/// let words = [231, 231, 231, 231, 303, 143, 223, 383].map(|u| 223 << 11 | u << 2);
/// let classes = [[METAL; 4], [FILM; 4]].concat();
/// let elect = |set| GmType::try_from(belt::elect_by_class(set, Precision::High, &words, &classes)?.gm_type);
/// assert_eq!(elect(ClassSet::of(&[METAL])), Ok(GmType::Translation));
/// assert_eq!(elect(ClassSet::ALL), Ok(GmType::Identity));
/// ```
pub fn elect_by_class(
    set: ClassSet,
    precision: impl Code<Precision>,
    words: &[u32],
    classes: &[u8],
) -> Result<Elected, Refusal> {
    of_classes(elected(raw::elect_by_class(set.bits(), byte(precision), words, classes)), words, classes)
}
