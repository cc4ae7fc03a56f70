//! Headers written, read and priced, and what a decoder keeps (docs/RULES.md, 'Header', 'Prices', 'Shear').

use crate::codes::byte;
use crate::refusal::{judged, judged_lists};
use crate::{Code, GmType, HEADER_BYTES, IDENTITIES, Length, Model, Precision, Refusal, StoredModel, raw};

/// What a header holds.
#[derive(Clone, Copy, Debug, PartialEq, Eq)]
#[non_exhaustive]
pub struct Models {
    /// The types of references 1 to 7, as codes.
    pub types: [u8; 7],
    /// Their models.
    pub models: [StoredModel; 7],
    /// The bits that the reading consumed.
    pub bits: usize,
}

impl Models {
    /// Each reference's type and model, x first.
    ///
    /// ```
    /// use belt::{GmType, IDENTITIES, Model, Precision};
    ///
    /// let read = belt::read_global_motion_params(&[0xA4, 0x20, 0x00], 0, Precision::High, &IDENTITIES)?;
    /// let [first, second, ..] = read.x_first();
    /// assert_eq!((first.0, first.1.shift().u, first.1.shift().v), (GmType::Translation, -0.125, 0.125));
    /// assert_eq!(second, (GmType::Identity, Model::IDENTITY));
    /// # Ok::<(), belt::Refusal>(())
    /// ```
    #[must_use]
    pub fn x_first(&self) -> [(GmType, Model); 7] {
        core::array::from_fn(|i| (GmType::answered(self.types[i]), self.models[i].x_first(self.types[i])))
    }

    /// The models of a reading.
    #[inline]
    pub(crate) fn of_raw(read: &raw::Models) -> Self {
        Self { types: read.types, models: read.params, bits: read.bits }
    }
}

/// Seven identities and no bits, as of a key frame.
///
/// ```
/// use belt::{Kind, Models, Precision};
///
/// assert_eq!(belt::read_global_motion(Kind::Key, &[], 0, Precision::High, &[]), Ok(Models::default()));
/// ```
impl Default for Models {
    fn default() -> Self {
        Self { types: [0; 7], models: IDENTITIES, bits: 0 }
    }
}

/// Writes seven types and models from bit `start`, 0 to 7, of the first byte of `header` on ('Header'); answers how many
/// bits, without the start. The bits before the start stay, and those behind the last one up to its byte's end become 0.
/// The buffer needs the exact bytes, those of start and bits; [`HEADER_BYTES`] are always enough.
///
/// # Errors
///
/// [`Refusal::WrongLength`], [`Refusal::NoSuchCode`], [`Refusal::StartOver`], [`Refusal::OffGrid`],
/// [`Refusal::PriorOut`], [`Refusal::TooShort`].
///
/// ```
/// use belt::{IDENTITIES, Precision, StoredModel};
///
/// let mut models = IDENTITIES;
/// models[0] = StoredModel([8192, -8192, 65536, 0, 0, 65536]);
/// let (types, mut header) = ([1, 0, 0, 0, 0, 0, 0], [0xFF; 4]);
/// let bits = belt::encode_inter_global_motion(&types, &models, Precision::High, &IDENTITIES, 3, &mut header)?;
/// assert_eq!((bits, header), (17, [0xF4, 0x84, 0x00, 0xFF]));
/// # Ok::<(), belt::Refusal>(())
/// ```
pub fn encode_inter_global_motion(
    types: &[u8],
    models: &[StoredModel],
    precision: impl Code<Precision>,
    prior: &[StoredModel],
    start: usize,
    header: &mut [u8],
) -> Result<usize, Refusal> {
    let (flag, numbers, prior_numbers) = (byte(precision), raw::numbers(models), raw::numbers(prior));
    let written = raw::encode_inter_global_motion(types, numbers, flag, prior_numbers, start, header);
    // a header that was refused for its room alone, into room that is always enough
    let wanted = || {
        let mut room = [0; HEADER_BYTES];
        let bits = raw::encode_inter_global_motion(types, numbers, flag, prior_numbers, start, &mut room).bits;
        (start + bits).div_ceil(8)
    };
    judged_lists(
        written.refusal,
        written.bits,
        || [Length::of("types", types, 7), Length::of("models", models, 7), Length::of("prior", prior, 7)],
        || [Length::of("header", header, wanted())],
    )
}

/// Reads seven types and models from bit `at` of `header` on ('Reading by the standard').
///
/// # Errors
///
/// [`Refusal::WrongLength`], [`Refusal::NoSuchCode`], [`Refusal::PriorOut`], [`Refusal::EndsFirst`].
///
/// ```
/// use belt::{IDENTITIES, Precision};
///
/// let read = belt::read_global_motion_params(&[0xF4, 0x84, 0x00], 3, Precision::High, &IDENTITIES)?;
/// assert_eq!((read.types[0], read.bits), (1, 17));
/// assert_eq!(read.models[0].0[..2], [8192, -8192]);
/// # Ok::<(), belt::Refusal>(())
/// ```
pub fn read_global_motion_params(
    header: &[u8],
    at: usize,
    precision: impl Code<Precision>,
    prior: &[StoredModel],
) -> Result<Models, Refusal> {
    let read = raw::read_global_motion_params(header, at, byte(precision), raw::numbers(prior));
    judged_lists(read.refusal, Models::of_raw(&read), || [Length::of("prior", prior, 7)], || [])
}

/// The kind of a frame.
#[derive(Clone, Copy, Debug, PartialEq, Eq, Hash)]
pub enum Kind {
    /// Seven references are coded.
    Inter,
    /// None is: FrameIsIntra of the standard holds.
    Key,
}

/// Writes the header of a frame of either kind ('Key frames'); answers how many bits. An inter frame's is what
/// [`encode_inter_global_motion`] writes. A key frame has no bits: its models must be seven identities of type 0, its
/// prior isn't looked at, and no byte is needed or touched.
///
/// # Errors
///
/// Of an inter frame those of [`encode_inter_global_motion`]; of a key frame [`Refusal::WrongLength`],
/// [`Refusal::NoSuchCode`], [`Refusal::StartOver`], [`Refusal::OffGrid`].
///
/// ```
/// use belt::{IDENTITIES, Kind, Precision};
///
/// let (high, mut header) = (Precision::High, [0xFF]);
/// assert_eq!(belt::encode_global_motion(Kind::Key, &[0; 7], &IDENTITIES, high, &[], 3, &mut header), Ok(0));
/// assert_eq!(header, [0xFF]);
/// assert_eq!(belt::encode_global_motion(Kind::Inter, &[0; 7], &IDENTITIES, high, &IDENTITIES, 0, &mut header), Ok(7));
/// assert_eq!(header, [0x00]);
/// ```
pub fn encode_global_motion(
    kind: Kind,
    types: &[u8],
    models: &[StoredModel],
    precision: impl Code<Precision>,
    prior: &[StoredModel],
    start: usize,
    header: &mut [u8],
) -> Result<usize, Refusal> {
    if kind == Kind::Inter {
        return encode_inter_global_motion(types, models, precision, prior, start, header);
    }
    let (numbers, prior) = (raw::numbers(models), raw::numbers(prior));
    let written = raw::encode_global_motion(true, types, numbers, byte(precision), prior, start, header);
    let lists = || [Length::of("types", types, 7), Length::of("models", models, 7)];
    judged_lists(written.refusal, written.bits, lists, || [])
}

/// Reads the models of a frame of either kind ('Key frames'). An inter frame's are what [`read_global_motion_params`]
/// reads; a key frame's are seven identities and no bits, whatever the bytes, the position and the prior.
///
/// # Errors
///
/// Of an inter frame those of [`read_global_motion_params`]; of a key frame [`Refusal::NoSuchCode`].
///
/// ```
/// let read = belt::read_global_motion(belt::Kind::Key, &[], 99, belt::Precision::High, &[])?;
/// assert_eq!((read.types, read.models, read.bits), ([0; 7], belt::IDENTITIES, 0));
/// # Ok::<(), belt::Refusal>(())
/// ```
pub fn read_global_motion(
    kind: Kind,
    header: &[u8],
    at: usize,
    precision: impl Code<Precision>,
    prior: &[StoredModel],
) -> Result<Models, Refusal> {
    if kind == Kind::Inter {
        return read_global_motion_params(header, at, precision, prior);
    }
    let read = raw::read_global_motion(true, header, at, byte(precision), raw::numbers(prior));
    judged(read.refusal, Models::of_raw(&read))
}

/// How many ordinals of a slot have a code of each length ('Prices').
#[derive(Clone, Copy, Debug, PartialEq, Eq)]
pub struct PriceList {
    lengths: usize,
    ordinals: [u32; 20],
}

impl PriceList {
    /// The bits of the shortest code.
    pub const SHORTEST: usize = 4;

    /// The ordinals whose code takes [`Self::SHORTEST`] bits, one more and so on.
    ///
    /// ```
    /// let prices = belt::coefficient_prices(belt::GmType::Translation, belt::Precision::High, 0, 0)?;
    /// assert_eq!(prices.ordinals().iter().sum::<u32>(), 1025);
    /// # Ok::<(), belt::Refusal>(())
    /// ```
    #[must_use]
    pub fn ordinals(&self) -> &[u32] {
        &self.ordinals[..self.lengths]
    }

    /// How many ordinals cost so many bits.
    ///
    /// ```
    /// let prices = belt::coefficient_prices(belt::GmType::Translation, belt::Precision::High, 0, 0)?;
    /// assert_eq!([3, 4, 16, 18].map(|bits| prices.at(bits)), [0, 8, 511, 0]);
    /// # Ok::<(), belt::Refusal>(())
    /// ```
    #[must_use]
    pub fn at(&self, bits: usize) -> u32 {
        bits.checked_sub(Self::SHORTEST).and_then(|place| self.ordinals().get(place)).copied().unwrap_or(0)
    }
}

/// Lists what the coefficients of a slot cost about a prior ('Prices').
///
/// # Errors
///
/// [`Refusal::NoSuchCode`], [`Refusal::NoSuchSlot`] (also a slot that the type doesn't carry), [`Refusal::PriorOut`].
///
/// ```
/// use belt::{GmType, Precision, Refusal};
///
/// let prices = belt::coefficient_prices(GmType::Translation, Precision::High, 0, 0)?;
/// assert_eq!(prices.ordinals(), [8, 8, 0, 16, 0, 32, 0, 64, 0, 128, 0, 256, 511, 2]);
/// assert_eq!(belt::coefficient_prices(GmType::Identity, Precision::Low, 0, 0), Err(Refusal::NoSuchSlot));
/// # Ok::<(), Refusal>(())
/// ```
pub fn coefficient_prices(
    gm_type: impl Code<GmType>,
    precision: impl Code<Precision>,
    slot: u8,
    prior: i32,
) -> Result<PriceList, Refusal> {
    let raw::PriceList { refusal, lengths, ordinals } =
        raw::coefficient_prices(byte(gm_type), byte(precision), slot, prior);
    judged(refusal, PriceList { lengths, ordinals })
}

/// Prices a frame without writing it ('Prices'): the bits that [`encode_global_motion`] writes, from every start.
///
/// # Errors
///
/// [`Refusal::WrongLength`], [`Refusal::NoSuchCode`], [`Refusal::OffGrid`], [`Refusal::PriorOut`]; of a key frame not the
/// last.
///
/// ```
/// use belt::{IDENTITIES, Kind, Precision};
///
/// assert_eq!(belt::frame_price(Kind::Inter, &[0; 7], &IDENTITIES, Precision::High, &IDENTITIES), Ok(7));
/// assert_eq!(belt::frame_price(Kind::Key, &[0; 7], &IDENTITIES, Precision::High, &[]), Ok(0));
/// ```
pub fn frame_price(
    kind: Kind,
    types: &[u8],
    models: &[StoredModel],
    precision: impl Code<Precision>,
    prior: &[StoredModel],
) -> Result<usize, Refusal> {
    let key = kind == Kind::Key;
    let price = raw::frame_price(key, types, raw::numbers(models), byte(precision), raw::numbers(prior));
    let lists = || {
        let prior = if key { Length::of("types", types, 7) } else { Length::of("prior", prior, 7) };
        [Length::of("types", types, 7), Length::of("models", models, 7), prior]
    };
    judged_lists(price.refusal, price.bits, lists, || [])
}

/// The shear numbers of a warp, at 16 fraction bits, and whether a decoder keeps the warp.
#[derive(Clone, Copy, Debug, PartialEq, Eq)]
pub struct Shear {
    /// Whether a decoder keeps the warp.
    pub valid: bool,
    /// Slot 2 less 1, clamped and rounded to a multiple of 64, as the next three are.
    pub alpha: i32,
    /// Slot 3.
    pub beta: i32,
    /// Slot 4 divided by slot 2.
    pub gamma: i32,
    /// Slot 5 less slot 3 times slot 4 divided by slot 2, less 1.
    pub delta: i32,
}

/// Will a decoder keep the warp of a rotation-zoom (2) or an affine model (3)? The four numbers are given whether it
/// does or not. Its six numbers are the same in both orders.
///
/// # Errors
///
/// [`Refusal::WrongLength`], [`Refusal::NoSuchCode`], [`Refusal::OffGrid`].
///
/// ```
/// use belt::{GmType, Refusal};
///
/// let kept = belt::setup_shear(GmType::Affine, &[0, 0, 65536, 8192, -8192, 65536])?;
/// assert_eq!((kept.valid, kept.beta, kept.gamma, kept.delta), (true, 8192, -8192, 1024));
/// assert_eq!(belt::setup_shear(GmType::Translation, &[0, 0, 65536, 0, 0, 65536]), Err(Refusal::OffGrid));
/// # Ok::<(), Refusal>(())
/// ```
pub fn setup_shear(gm_type: impl Code<GmType>, params: &[i32]) -> Result<Shear, Refusal> {
    let raw::Shear { refusal, valid, alpha, beta, gamma, delta } = raw::setup_shear(byte(gm_type), params);
    let shear = Shear { valid: valid == 1, alpha, beta, gamma, delta };
    judged_lists(refusal, shear, || [Length::of("params", params, 6)], || [])
}
