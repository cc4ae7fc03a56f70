//! The table of refusals (docs/RULES.md, 'When a call says no').

use core::error::Error;
use core::fmt;

/// A row of the table, in the order in which rows are judged. Where a list or a buffer has the wrong length, it says
/// which and what is wanted.
///
/// ```
/// use belt::{Refusal, Task};
///
/// let plane = [7; 64 * 48];
/// let refused = belt::job(&Task::new(&plane[1..], &plane, 64, 48), &mut belt::Buffers::new(64, 48).lend());
/// match refused.unwrap_err() {
///     Refusal::WrongLength(list) => assert_eq!((list.name, list.given, list.wanted), ("input", 3071, 3072)),
///     // a later version may have more rows
///     other => panic!("{other}"),
/// }
/// ```
#[derive(Clone, Copy, Debug, PartialEq, Eq, Hash)]
#[non_exhaustive]
pub enum Refusal {
    /// 1: side over 1,024, or over 4,096 samples.
    TooLarge,
    /// 18: motion of a practice belt beyond 24 pels.
    TooFar,
    /// 2: plane, half plane handed in, class, type, model or prior list of wrong length.
    WrongLength(Length),
    /// 4: type, class, flag, form, trim, elect or switch code out of range; class over 4 in a set; type 0 to fit.
    NoSuchCode,
    /// 19: empty set of classes.
    NoClass,
    /// 5: slot over 5, or to price one that the type doesn't carry; reference outside 1 to 7; band that ends before it
    /// begins or behind the last block row.
    NoSuchSlot,
    /// 14: start of a header to write over 7.
    StartOver,
    /// 7: model off the grid, uncarried slot or pair wrong.
    OffGrid,
    /// 8: prior out of range.
    PriorOut,
    /// 12: words to store out of range or not rising.
    NotRising,
    /// 13: class 4 to be stored in form 1.
    NotHeld,
    /// 3: output or working buffer too short.
    TooShort(Length),
    /// 15: fewer samples, or fewer of the classes named, than a trimmed fit needs.
    TooFew,
    /// 17: frame number 0: the shutter was closed.
    ShutterClosed,
    /// 6: elimination refuses.
    Singular,
    /// 16: residual of a trimmed fit not finite.
    NotFinite,
    /// 9: bytes end before the last bit or block.
    EndsFirst,
    /// 10: block check wrong.
    WrongCheck,
    /// 11: block field, filler or sequence wrong.
    WrongBlock,
}

/// A list or a lent buffer, the elements that it has, and those that are wanted: of a buffer, at least so many.
#[derive(Clone, Copy, Debug, PartialEq, Eq, Hash)]
pub struct Length {
    /// The name of the argument.
    pub name: &'static str,
    /// How many elements it has.
    pub given: usize,
    /// How many are wanted.
    pub wanted: usize,
}

impl Length {
    pub(crate) fn of<T>(name: &'static str, list: &[T], wanted: usize) -> Self {
        Self { name, given: list.len(), wanted }
    }

    /// Where the caller's lists are all right by what this crate knows.
    const UNNAMED: Self = Self { name: "a list", given: 0, wanted: 0 };
}

impl Refusal {
    /// Every row's number and condition, in the table's order.
    pub const TABLE: &[(u32, &str)] = &[
        (1, "side over 1,024, or over 4,096 samples"),
        (18, "motion of a practice belt beyond 24 pels"),
        (2, "plane, half plane handed in, class, type, model or prior list of wrong length"),
        (4, "type, class, flag, form, trim, elect or switch code out of range; class over 4 in a set; type 0 to fit"),
        (19, "empty set of classes"),
        (
            5,
            "slot over 5, or to price one that the type doesn't carry; reference outside 1 to 7; band that ends before it begins or behind the last block row",
        ),
        (14, "start of a header to write over 7"),
        (7, "model off the grid, uncarried slot or pair wrong"),
        (8, "prior out of range"),
        (12, "words to store out of range or not rising"),
        (13, "class 4 to be stored in form 1"),
        (3, "output or working buffer too short"),
        (15, "fewer samples, or fewer of the classes named, than a trimmed fit needs"),
        (17, "frame number 0: the shutter was closed"),
        (6, "elimination refuses"),
        (16, "residual of a trimmed fit not finite"),
        (9, "bytes end before the last bit or block"),
        (10, "block check wrong"),
        (11, "block field, filler or sequence wrong"),
    ];

    /// The row's number.
    ///
    /// ```
    /// assert_eq!(belt::elect(2, &[]).map_err(belt::Refusal::number), Err(4));
    /// ```
    #[must_use]
    pub fn number(self) -> u32 {
        match self {
            Refusal::TooLarge => 1,
            Refusal::TooFar => 18,
            Refusal::WrongLength(_) => 2,
            Refusal::NoSuchCode => 4,
            Refusal::NoClass => 19,
            Refusal::NoSuchSlot => 5,
            Refusal::StartOver => 14,
            Refusal::OffGrid => 7,
            Refusal::PriorOut => 8,
            Refusal::NotRising => 12,
            Refusal::NotHeld => 13,
            Refusal::TooShort(_) => 3,
            Refusal::TooFew => 15,
            Refusal::ShutterClosed => 17,
            Refusal::Singular => 6,
            Refusal::NotFinite => 16,
            Refusal::EndsFirst => 9,
            Refusal::WrongCheck => 10,
            Refusal::WrongBlock => 11,
        }
    }

    /// The row's condition.
    ///
    /// ```
    /// assert_eq!(belt::Refusal::NoClass.condition(), "empty set of classes");
    /// ```
    #[must_use]
    pub fn condition(self) -> &'static str {
        let row = Self::TABLE.iter().find(|row| row.0 == self.number());
        row.expect("the table has every row").1
    }

    /// The row of a number; of two rows with lengths, the one that is wrong.
    fn of_number(number: u32, length: Length) -> Option<Refusal> {
        Some(match number {
            1 => Refusal::TooLarge,
            18 => Refusal::TooFar,
            2 => Refusal::WrongLength(length),
            4 => Refusal::NoSuchCode,
            19 => Refusal::NoClass,
            5 => Refusal::NoSuchSlot,
            14 => Refusal::StartOver,
            7 => Refusal::OffGrid,
            8 => Refusal::PriorOut,
            12 => Refusal::NotRising,
            13 => Refusal::NotHeld,
            3 => Refusal::TooShort(length),
            15 => Refusal::TooFew,
            17 => Refusal::ShutterClosed,
            6 => Refusal::Singular,
            16 => Refusal::NotFinite,
            9 => Refusal::EndsFirst,
            10 => Refusal::WrongCheck,
            11 => Refusal::WrongBlock,
            _ => return None,
        })
    }
}

/// ```
/// let error = belt::write_frame(5, &[0x0006_FB7C], &[belt::FILM], &mut [0; 511]).unwrap_err();
/// assert_eq!(error.to_string(), "3: output or working buffer too short: blocks has 511 elements, 512 are wanted");
/// ```
impl fmt::Display for Refusal {
    fn fmt(&self, f: &mut fmt::Formatter<'_>) -> fmt::Result {
        write!(f, "{}: {}", self.number(), self.condition())?;
        match self {
            Refusal::WrongLength(Length { name, given, wanted })
            | Refusal::TooShort(Length { name, given, wanted }) => {
                write!(f, ": {name} has {given} elements, {wanted} are wanted")
            }
            _ => Ok(()),
        }
    }
}

impl Error for Refusal {}

/// The value of a call that refused nothing.
#[inline]
pub(crate) fn judged<T>(number: u32, value: T) -> Result<T, Refusal> {
    judged_lists(number, value, || [], || [])
}

/// The same for a call that judges lists (row 2) and lent buffers (row 3): their lengths, in the order of the call.
/// They are looked at only where the row is theirs.
#[inline]
pub(crate) fn judged_lists<T, const N: usize, const M: usize>(
    number: u32,
    value: T,
    lists: impl FnOnce() -> [Length; N],
    buffers: impl FnOnce() -> [Length; M],
) -> Result<T, Refusal> {
    let wrong = match number {
        0 => return Ok(value),
        2 => lists().into_iter().find(|list| list.given != list.wanted),
        3 => buffers().into_iter().find(|buffer| buffer.given < buffer.wanted),
        _ => None,
    };
    let refusal = Refusal::of_number(number, wrong.unwrap_or(Length::UNNAMED));
    Err(refusal.expect("the library refuses with a row of the table"))
}
