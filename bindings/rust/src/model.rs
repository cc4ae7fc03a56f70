//! Models in their two orders, and words and models in pels (docs/RULES.md, 'Sample' and 'Model').

use crate::codes::byte;
use crate::{Code, GmType, root};

/// A model, x first: the order of fits, grid and score. Six numbers at 16 fraction bits; slots 0 and 1 are the shift
/// across and down.
///
/// A header's order is another type, [`StoredModel`], so that one isn't taken for the other:
///
/// ```
/// use belt::{GmType, Model, StoredModel};
///
/// let right_two_down_one = Model([131_072, 65_536, 65_536, 0, 0, 65_536]);
/// let stored = right_two_down_one.row_first(GmType::Translation);
/// assert_eq!(stored, StoredModel([65_536, 131_072, 65_536, 0, 0, 65_536]));
/// assert_eq!(stored.x_first(GmType::Translation), right_two_down_one);
/// ```
#[derive(Clone, Copy, Debug, PartialEq, Eq, Hash)]
#[repr(transparent)]
pub struct Model(pub [i32; 6]);

/// A model as headers, priors and reports have it: of a translation slot 0 is the row's motion and slot 1 the
/// column's. The other types are as in [`Model`].
#[derive(Clone, Copy, Debug, PartialEq, Eq, Hash)]
#[repr(transparent)]
pub struct StoredModel(pub [i32; 6]);

/// The numbers of no motion, in either order.
const IDENTITY: [i32; 6] = [0, 0, 65536, 0, 0, 65536];

/// One at 16 fraction bits.
const ONE: f64 = 65536.0;

/// Seven models of no motion: the prior of a frame that has none before it.
pub const IDENTITIES: [StoredModel; 7] = [StoredModel::IDENTITY; 7];

fn exchanged(gm_type: impl Code<GmType>, mut numbers: [i32; 6]) -> [i32; 6] {
    if byte(gm_type) == GmType::Translation.code() {
        numbers.swap(0, 1);
    }
    numbers
}

impl StoredModel {
    /// The model of no motion.
    pub const IDENTITY: Self = Self(IDENTITY);

    /// The same model in the other order, for its type.
    ///
    /// ```
    /// use belt::{GmType, Model, StoredModel};
    ///
    /// let stored = StoredModel([8192, -8192, 65536, 0, 0, 65536]);
    /// assert_eq!(stored.x_first(GmType::Translation), Model([-8192, 8192, 65536, 0, 0, 65536]));
    /// assert_eq!(stored.x_first(GmType::Affine), Model(stored.0));
    /// ```
    #[must_use]
    pub fn x_first(self, gm_type: impl Code<GmType>) -> Model {
        Model(exchanged(gm_type, self.0))
    }
}

impl Model {
    /// The model of no motion.
    pub const IDENTITY: Self = Self(IDENTITY);

    /// The same model in the other order, for its type.
    ///
    /// ```
    /// use belt::{GmType, Model, StoredModel};
    ///
    /// let model = Model([-8192, 8192, 65536, 0, 0, 65536]);
    /// assert_eq!(model.row_first(GmType::Translation), StoredModel([8192, -8192, 65536, 0, 0, 65536]));
    /// ```
    #[must_use]
    pub fn row_first(self, gm_type: impl Code<GmType>) -> StoredModel {
        StoredModel(exchanged(gm_type, self.0))
    }

    /// Its motion at a place, in pels: what the input shows at (x, y) stands at (x + u, y + v) in the reference.
    /// The origin is the centre of a plane's first pel.
    ///
    /// With the earlier frame as input this is the load's own motion; with the later one as input it is the negative
    /// ([`Model::moved_since_reference`]).
    ///
    /// ```
    /// // a zoom of 1/64 about the origin, and a shift by one pel to the right
    /// let model = belt::Model([65536, 0, 66560, 0, 0, 66560]);
    /// let motion = model.motion_at(64.0, 32.0);
    /// assert_eq!((motion.u, motion.v), (2.0, 0.5));
    /// ```
    #[must_use]
    pub fn motion_at(self, x: f64, y: f64) -> Motion {
        let [m0, m1, m2, m3, m4, m5] = self.0.map(|number| f64::from(number) / ONE);
        Motion { u: (m2 - 1.0) * x + m3 * y + m0, v: m4 * x + (m5 - 1.0) * y + m1 }
    }

    /// How far what the input shows at a place has moved since the reference was taken, in pels: the negative of
    /// [`Model::motion_at`]. It is the load's motion where the reference is the earlier frame and the input the later.
    ///
    /// ```
    /// use belt::{Buffers, Task};
    ///
    /// // a belt that runs 4 pels to the right and 2 up from the earlier frame to the later one
    /// let (mut earlier, mut later) = ([0; 96 * 80], [0; 96 * 80]);
    /// belt::make_practice_planes(1, 96, 80, -2, 4, &mut earlier, &mut later)?;
    /// let mut buffers = Buffers::new(96, 80);
    /// let forwards = belt::job(&Task::new(&earlier, &later, 96, 80), &mut buffers.lend())?.model();
    /// let backwards = belt::job(&Task::new(&later, &earlier, 96, 80), &mut buffers.lend())?.model();
    /// let (on, back) = (forwards.motion_at(40.0, 40.0), backwards.moved_since_reference(40.0, 40.0));
    /// assert_eq!(((on.u, on.v), (back.u, back.v)), ((4.0, -2.0), (4.0, -2.0)));
    /// # Ok::<(), belt::Refusal>(())
    /// ```
    #[must_use]
    pub fn moved_since_reference(self, x: f64, y: f64) -> Motion {
        let Motion { u, v } = self.motion_at(x, y);
        // so that no motion is 0 and not −0
        Motion { u: 0.0 - u, v: 0.0 - v }
    }

    /// Its motion at the origin; of a translation, anywhere.
    ///
    /// ```
    /// let shift = belt::Model([131_072, 65_536, 65_536, 0, 0, 65_536]).shift();
    /// assert_eq!((shift.u, shift.v), (2.0, 1.0));
    /// ```
    #[must_use]
    pub fn shift(self) -> Motion {
        self.motion_at(0.0, 0.0)
    }

    /// Its zoom, 1 for a translation; of an affine model, that of the rotation-zoom nearest to it. A load that grew
    /// since the reference was taken has a zoom below 1, since motion goes back to the reference.
    ///
    /// ```
    /// assert_eq!(belt::Model([0, 0, 66560, 0, 0, 66560]).zoom(), 1.015625);
    /// ```
    #[must_use]
    pub fn zoom(self) -> f64 {
        let (along, across) = self.rotzoom();
        length(along, across)
    }

    /// Its turn in degrees, from x towards y (clockwise on a screen); of an affine model, as for [`Model::zoom`].
    ///
    /// ```
    /// let turned = belt::Model([0, 0, 65526, -1144, 1144, 65526]);
    /// assert!((turned.degrees() - 1.0).abs() < 0.001 && (turned.zoom() - 1.0).abs() < 0.00001);
    /// ```
    #[cfg(feature = "std")]
    #[must_use]
    pub fn degrees(self) -> f64 {
        let (along, across) = self.rotzoom();
        across.atan2(along).to_degrees()
    }

    fn rotzoom(self) -> (f64, f64) {
        let [_, _, m2, m3, m4, m5] = self.0.map(|number| f64::from(number) / ONE);
        ((m2 + m5) / 2.0, (m4 - m3) / 2.0)
    }

    /// How many of the words it explains: those whose motion is at most so many pels from its own at their centre.
    ///
    /// The search finds motion of up to 27.875 pels ([`crate::MOST_EIGHTHS`]). What moved further gets some other
    /// motion, and no row refuses it; then few words agree.
    ///
    /// ```
    /// // a block at rest, and one that moves by a quarter of a pel
    /// let words = [223, 225].map(|u| 223 << 11 | u << 2);
    /// let agreeing = |pels| belt::Model::IDENTITY.agreeing(&words, pels);
    /// assert_eq!((agreeing(0.2), agreeing(0.25)), (1, 2));
    /// ```
    #[must_use]
    pub fn agreeing(self, words: &[u32], pels: f64) -> usize {
        let agrees = |word: &&u32| {
            let Sample { x, y, motion, .. } = Sample::of_word(**word);
            let own = self.motion_at(x, y);
            length(motion.u - own.u, motion.v - own.v) <= pels
        };
        words.iter().filter(agrees).count()
    }
}

/// The length of a side and another at a right angle to it; the same with and without `std`.
fn length(across: f64, down: f64) -> f64 {
    root(across * across + down * down)
}

/// A motion in pels, from the input to the reference: u to the right, v down.
#[derive(Clone, Copy, Debug, PartialEq)]
pub struct Motion {
    /// To the right.
    pub u: f64,
    /// Down.
    pub v: f64,
}

/// What a sample word says.
#[derive(Clone, Copy, Debug, PartialEq)]
pub struct Sample {
    /// The row of its block.
    pub row: u32,
    /// The column of its block.
    pub column: u32,
    /// The block's centre, in pels.
    pub x: f64,
    /// The block's centre, in pels.
    pub y: f64,
    /// The block's motion.
    pub motion: Motion,
    /// Its class bits: the class in a word of [`crate::read_frame`]; 0 where the classes stand beside the words.
    pub class_bits: u8,
}

impl Sample {
    /// The fields of a word.
    ///
    /// ```
    /// let sample = belt::Sample::of_word(0x0856_BBCF);
    /// assert_eq!((sample.row, sample.column, sample.class_bits), (2, 5, 3));
    /// assert_eq!((sample.motion.v, sample.motion.u), (-1.0, 2.5));
    /// assert_eq!((sample.x, sample.y), (87.5, 39.5));
    /// ```
    #[must_use]
    pub fn of_word(word: u32) -> Self {
        let (row, column) = (word >> 26, word >> 20 & 63);
        let centre = |place: u32| 16.0 * f64::from(place) + 7.5;
        let pels = |stored: u32| (f64::from(stored & 511) - f64::from(crate::MOST_EIGHTHS)) / 8.0;
        let motion = Motion { u: pels(word >> 2), v: pels(word >> 11) };
        Self { row, column, x: centre(column), y: centre(row), motion, class_bits: (word & 3) as u8 }
    }
}

/// A sample: its place and its motion in pels, any four numbers. What the fits and the score take of a word.
#[repr(C)]
#[derive(Clone, Copy, Debug, PartialEq)]
pub struct MotionSample {
    /// The place, to the right.
    pub x: f64,
    /// The place, down.
    pub y: f64,
    /// The motion, to the right.
    pub u: f64,
    /// The motion, down.
    pub v: f64,
}

impl MotionSample {
    /// The sample that a word stands for; its class plays no part.
    ///
    /// ```
    /// let sample = belt::MotionSample::of_word(0x0856_BBCF);
    /// assert_eq!(sample, belt::MotionSample { x: 87.5, y: 39.5, u: 2.5, v: -1.0 });
    /// ```
    #[must_use]
    pub fn of_word(word: u32) -> Self {
        let Sample { x, y, motion: Motion { u, v }, .. } = Sample::of_word(word);
        Self { x, y, u, v }
    }

    /// The word of a class that stands for the sample, where there is one: a block's centre, and a motion of whole
    /// eighths that nine bits hold. The word's sample then has the same bits.
    ///
    /// ```
    /// let sample = belt::MotionSample::of_word(0x0856_BBCF);
    /// assert_eq!(sample.word(3), Some(0x0856_BBCF));
    /// assert_eq!(sample.word(4), None);
    /// for u in [-0.0, 1e-300, 36.125, f64::NAN, f64::INFINITY] {
    ///     assert_eq!(belt::MotionSample { u, ..sample }.word(3), None);
    /// }
    /// assert_eq!(belt::MotionSample { x: 0.1, ..sample }.word(3), None);
    /// ```
    #[must_use]
    pub fn word(self, class: u8) -> Option<u32> {
        let place = |centre: f64| (centre as u32 / 16).min(63);
        let stored =
            |pels: f64| ((pels * 8.0) as i32).saturating_add(i32::from(crate::MOST_EIGHTHS)).clamp(0, 511) as u32;
        let word =
            place(self.y) << 26 | place(self.x) << 20 | stored(self.v) << 11 | stored(self.u) << 2 | u32::from(class);
        let bits = |sample: Self| [sample.x, sample.y, sample.u, sample.v].map(f64::to_bits);
        (class < 4 && bits(Self::of_word(word)) == bits(self)).then_some(word)
    }
}
