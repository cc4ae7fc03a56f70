//! Types of a model, precisions and forms by name, and their codes (docs/RULES.md, 'Model', 'Grid', 'Sample block').

use crate::Refusal;
use core::fmt;

/// The type of a model ('Model').
///
/// ```
/// use belt::{GmType, Refusal};
///
/// assert_eq!(GmType::try_from(3), Ok(GmType::Affine));
/// assert_eq!(GmType::try_from(4), Err(Refusal::NoSuchCode));
/// assert_eq!((u8::from(GmType::Rotzoom), GmType::Rotzoom.to_string()), (2, "rotation-zoom".to_string()));
/// ```
#[derive(Clone, Copy, Debug, PartialEq, Eq, PartialOrd, Ord, Hash)]
#[repr(u8)]
pub enum GmType {
    /// 0: no motion. It is read and elected, but can't be asked for.
    Identity = 0,
    /// 1: the same motion everywhere.
    Translation = 1,
    /// 2: a shift, a turn and a zoom.
    Rotzoom = 2,
    /// 3: any affine motion.
    Affine = 3,
}

impl GmType {
    /// All four, by their codes.
    pub const ALL: [Self; 4] = [Self::Identity, Self::Translation, Self::Rotzoom, Self::Affine];

    /// Its code.
    ///
    /// ```
    /// assert_eq!(belt::GmType::ALL.map(belt::GmType::code), [0, 1, 2, 3]);
    /// ```
    #[must_use]
    pub const fn code(self) -> u8 {
        self as u8
    }

    /// The type of a code that the library answered, which is one of the four.
    pub(crate) fn answered(code: u8) -> Self {
        Self::try_from(code).expect("the library answers with a type")
    }
}

impl TryFrom<u8> for GmType {
    type Error = Refusal;

    fn try_from(code: u8) -> Result<Self, Refusal> {
        Self::ALL.get(usize::from(code)).copied().ok_or(Refusal::NoSuchCode)
    }
}

impl From<GmType> for u8 {
    fn from(gm_type: GmType) -> u8 {
        gm_type.code()
    }
}

impl fmt::Display for GmType {
    fn fmt(&self, f: &mut fmt::Formatter<'_>) -> fmt::Result {
        f.pad(match self {
            GmType::Identity => "identity",
            GmType::Translation => "translation",
            GmType::Rotzoom => "rotation-zoom",
            GmType::Affine => "affine",
        })
    }
}

/// The precision of a translation in a header, its flag ('Grid').
///
/// ```
/// use belt::{Precision, Refusal};
///
/// assert_eq!([0, 1].map(Precision::try_from), [Ok(Precision::Low), Ok(Precision::High)]);
/// assert_eq!(Precision::try_from(2), Err(Refusal::NoSuchCode));
/// assert_eq!((u8::from(Precision::High), Precision::High.to_string()), (1, "high".to_string()));
/// assert_eq!(Precision::default(), Precision::High);
/// ```
#[derive(Clone, Copy, Debug, Default, PartialEq, Eq, PartialOrd, Ord, Hash)]
#[repr(u8)]
pub enum Precision {
    /// 0: quarters of a pel.
    Low = 0,
    /// 1: eighths of a pel.
    #[default]
    High = 1,
}

impl Precision {
    /// Its code, the flag.
    ///
    /// ```
    /// assert_eq!((belt::Precision::Low.code(), belt::Precision::High.code()), (0, 1));
    /// ```
    #[must_use]
    pub const fn code(self) -> u8 {
        self as u8
    }
}

impl TryFrom<u8> for Precision {
    type Error = Refusal;

    fn try_from(code: u8) -> Result<Self, Refusal> {
        match code {
            0 => Ok(Precision::Low),
            1 => Ok(Precision::High),
            _ => Err(Refusal::NoSuchCode),
        }
    }
}

impl From<Precision> for u8 {
    fn from(precision: Precision) -> u8 {
        precision.code()
    }
}

impl fmt::Display for Precision {
    fn fmt(&self, f: &mut fmt::Formatter<'_>) -> fmt::Result {
        f.pad(match self {
            Precision::Low => "low",
            Precision::High => "high",
        })
    }
}

/// The forms of a sample block ('Sample block'). Frames are stored in form 2, in a [`crate::Run`] in the form that it
/// holds; form 1 is read and converted.
///
/// ```
/// use belt::{Form, Refusal};
///
/// assert_eq!(Form::try_from(2), Ok(Form::Two));
/// assert_eq!(Form::try_from(3), Err(Refusal::NoSuchCode));
/// assert_eq!(u32::from(Form::One), 1);
/// ```
#[derive(Clone, Copy, Debug, PartialEq, Eq, PartialOrd, Ord, Hash)]
#[non_exhaustive]
pub enum Form {
    /// 125 samples a block, a sample one word with its class in the two low bits.
    One,
    /// 100 samples a block, a sample one word with class bits zero, and a byte of class.
    Two,
}

impl Form {
    /// The most samples in a block.
    ///
    /// ```
    /// assert_eq!((belt::Form::One.samples(), belt::Form::Two.samples()), (125, 100));
    /// ```
    #[must_use]
    pub const fn samples(self) -> usize {
        match self {
            Form::One => 125,
            Form::Two => 100,
        }
    }

    /// Its code, which each block carries in its third byte.
    ///
    /// ```
    /// assert_eq!((belt::Form::One.code(), belt::Form::Two.code()), (1, 2));
    /// ```
    #[must_use]
    pub const fn code(self) -> u32 {
        match self {
            Form::One => 1,
            Form::Two => 2,
        }
    }
}

impl TryFrom<u32> for Form {
    type Error = Refusal;

    fn try_from(code: u32) -> Result<Self, Refusal> {
        match code {
            1 => Ok(Form::One),
            2 => Ok(Form::Two),
            _ => Err(Refusal::NoSuchCode),
        }
    }
}

impl From<Form> for u32 {
    fn from(form: Form) -> u32 {
        form.code()
    }
}

/// What a call takes for a [`GmType`], a [`Precision`] or a [`Form`]: the name, or the plain number of a code, as it
/// came from outside. The library judges a number, and refuses one that is no code with [`Refusal::NoSuchCode`].
///
/// ```
/// use belt::{Precision, Refusal};
///
/// assert_eq!(belt::elect(Precision::High, &[]), belt::elect(1, &[]));
/// assert_eq!(belt::elect(2, &[]), Err(Refusal::NoSuchCode));
/// ```
///
/// One isn't taken for the other:
///
/// ```compile_fail
/// belt::elect(belt::GmType::Translation, &[]);
/// ```
pub trait Code<Kind>: Copy + sealed::Sealed {
    /// The plain number.
    ///
    /// ```
    /// use belt::{Code, Form, GmType};
    ///
    /// let number = |gm_type| Code::<GmType>::number(gm_type);
    /// assert_eq!([GmType::Affine.code(), 7].map(number), [3, 7]);
    /// assert_eq!(Form::Two.number(), 2);
    /// ```
    fn number(self) -> u32;
}

/// A name and the plain number of its codes, as what a call takes.
macro_rules! coded {
    ($kind:ty, $number:ty) => {
        impl sealed::Sealed for $kind {}

        impl Code<$kind> for $kind {
            fn number(self) -> u32 {
                self.code().into()
            }
        }

        impl Code<$kind> for $number {
            fn number(self) -> u32 {
                self.into()
            }
        }
    };
}

coded!(GmType, u8);
coded!(Precision, u8);
coded!(Form, u32);

/// The number of a type or a precision, which is a byte.
pub(crate) fn byte<Kind>(code: impl Code<Kind>) -> u8 {
    code.number() as u8
}

mod sealed {
    /// No code is added from outside.
    pub trait Sealed {}
    impl Sealed for u8 {}
    impl Sealed for u32 {}
}
