//! Sets of classes (docs/RULES.md, 'Sets of classes').

/// A set of classes that a fit, a score, an election or a job names: a byte of bits, class c being bit c.
///
/// Any byte can be held. The library refuses a set that names a class over 4 with [`crate::Refusal::NoSuchCode`] and the
/// empty one with [`crate::Refusal::NoClass`].
///
/// ```
/// use belt::{ClassSet, FIBRE, FILM, METAL};
///
/// let belt = ClassSet::of(&[FIBRE, METAL]);
/// assert_eq!(belt.bits(), 0b01010);
/// assert!(belt.names(METAL) && !belt.names(FILM));
/// assert_eq!(ClassSet::default(), ClassSet::ALL);
/// ```
#[derive(Clone, Copy, Debug, PartialEq, Eq, Hash)]
pub struct ClassSet(u8);

impl ClassSet {
    /// All five classes: every sample.
    pub const ALL: Self = Self(31);

    /// The set of these classes, in any order. One over 7 is taken as 7, so that the set is refused as for any class
    /// over 4.
    ///
    /// ```
    /// use belt::{ClassSet, FIBRE, METAL};
    ///
    /// const HEAVY: ClassSet = ClassSet::of(&[METAL, FIBRE, METAL]);
    /// assert_eq!(HEAVY.bits(), 0b01010);
    /// ```
    #[must_use]
    pub const fn of(classes: &[u8]) -> Self {
        let mut bits = 0;
        let mut place = 0;
        while place < classes.len() {
            let class = classes[place];
            bits |= 1 << (if class > 7 { 7 } else { class });
            place += 1;
        }
        Self(bits)
    }

    /// The set of these bits.
    ///
    /// ```
    /// assert_eq!(belt::ClassSet::from_bits(31), belt::ClassSet::ALL);
    /// ```
    #[must_use]
    pub const fn from_bits(bits: u8) -> Self {
        Self(bits)
    }

    /// Its bits.
    ///
    /// ```
    /// assert_eq!(belt::ClassSet::of(&[belt::FILM]).bits(), 0b10000);
    /// ```
    #[must_use]
    pub const fn bits(self) -> u8 {
        self.0
    }

    /// Whether it names a class; none over 4 is ever named.
    ///
    /// ```
    /// let set = belt::ClassSet::from_bits(0xFF);
    /// assert!(set.names(4) && !set.names(5));
    /// ```
    #[must_use]
    pub const fn names(self, class: u8) -> bool {
        class <= crate::FILM && self.0 >> class & 1 == 1
    }
}

/// All five.
impl Default for ClassSet {
    fn default() -> Self {
        Self::ALL
    }
}
