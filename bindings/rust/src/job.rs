//! The whole job: what it is told, handed and lent, and what it reports (docs/RULES.md, 'Job').

#[cfg(feature = "std")]
use crate::Searched;
#[cfg(feature = "std")]
use crate::bands::searched;
use crate::codes::{Form, GmType, Precision};
use crate::refusal::judged_lists;
use crate::{
    ClassSet, HEADER_BYTES, IDENTITIES, Length, MOST_SAMPLES, MOST_SIDE, Model, Refusal, StoredModel, UNSORTED,
    block_bytes, half_plane_values, planes, raw, rooms, sample_count,
};
use alloc::vec;
use alloc::vec::Vec;

/// What a job is told beside its planes and lists: [`Settings::elect`] or [`Settings::fit`], and what differs.
///
/// The fields are the library's own codes, so that what came from outside can be put there as it is; a job judges
/// them. By default a job elects, for frame 1.
///
/// ```
/// use belt::{ClassSet, GmType, METAL, Precision, Settings};
///
/// let settings = Settings::fit(5, GmType::Affine).trim().reference(3).start(2).set(ClassSet::of(&[METAL]));
/// assert_eq!((settings.frame, settings.gm_type, settings.trim, settings.elect), (5, 3, 1, 0));
/// assert_eq!((settings.reference, settings.start, settings.set.bits()), (3, 2, 0b01000));
/// let elects = Settings::elect(5).precision(Precision::Low);
/// assert_eq!((elects.elect, elects.flag, elects.reference, elects.set), (1, 0, 1, ClassSet::ALL));
/// assert_eq!(Settings::default(), Settings::elect(1));
/// ```
///
/// A later version may have more of them, so one isn't made by naming its fields:
///
/// ```compile_fail
/// let settings = belt::Settings { frame: 5, ..belt::Settings::elect(1) };
/// ```
#[derive(Clone, Copy, Debug, PartialEq, Eq, Hash)]
#[non_exhaustive]
pub struct Settings {
    /// The frame's number, which each block carries; 0 is refused.
    pub frame: u16,
    /// The type to fit, 1 to 3, a [`GmType`].
    pub gm_type: u8,
    /// The reference that the model is for, 1 to 7.
    pub reference: u8,
    /// 1 for high precision, else 0, a [`Precision`]; in a run its own is taken, and this isn't looked at.
    pub flag: u8,
    /// 1 for a fit after trimming, else 0.
    pub trim: u8,
    /// 1 for a job that elects its type, else 0. Type and trim code then aren't looked at.
    pub elect: u8,
    /// The classes whose samples are fitted, scored or elected among. Blocks hold every sample.
    pub set: ClassSet,
    /// The bit of the header's first byte at which writing begins, 0 to 7.
    pub start: usize,
}

impl Settings {
    /// A job that elects its type ('Election'): at high precision, for reference 1, among all classes, from bit 0 on.
    ///
    /// ```
    /// let settings = belt::Settings::elect(5);
    /// assert_eq!((settings.frame, settings.elect, settings.flag, settings.reference, settings.start), (5, 1, 1, 1, 0));
    /// ```
    #[must_use]
    pub const fn elect(frame: u16) -> Self {
        Self {
            frame,
            gm_type: GmType::Identity.code(),
            reference: 1,
            flag: Precision::High.code(),
            trim: 0,
            elect: 1,
            set: ClassSet::ALL,
            start: 0,
        }
    }

    /// A job that fits a type, else as [`Settings::elect`]. [`GmType::Identity`] isn't fitted: such a job is refused
    /// with [`Refusal::NoSuchCode`].
    ///
    /// ```
    /// use belt::{GmType, Settings};
    ///
    /// let settings = Settings::fit(5, GmType::Rotzoom);
    /// assert_eq!((settings.gm_type, settings.elect, settings.trim), (2, 0, 0));
    /// ```
    #[must_use]
    pub const fn fit(frame: u16, gm_type: GmType) -> Self {
        Self { gm_type: gm_type.code(), elect: 0, ..Self::elect(frame) }
    }

    /// After trimming ('Trimming'). An election always trims.
    ///
    /// ```
    /// use belt::{GmType, Settings};
    ///
    /// assert_eq!(Settings::fit(5, GmType::Affine).trim().trim, 1);
    /// ```
    #[must_use]
    pub const fn trim(self) -> Self {
        Self { trim: 1, ..self }
    }

    /// For this reference, 1 to 7.
    ///
    /// ```
    /// assert_eq!(belt::Settings::elect(5).reference(7).reference, 7);
    /// ```
    #[must_use]
    pub const fn reference(self, reference: u8) -> Self {
        Self { reference, ..self }
    }

    /// At this precision.
    ///
    /// ```
    /// use belt::{Precision, Settings};
    ///
    /// assert_eq!(Settings::elect(5).precision(Precision::Low).flag, 0);
    /// ```
    #[must_use]
    pub const fn precision(self, precision: Precision) -> Self {
        Self { flag: precision.code(), ..self }
    }

    /// By the samples of these classes alone ('Sets of classes').
    ///
    /// ```
    /// use belt::{ClassSet, FIBRE, Settings};
    ///
    /// assert!(!Settings::elect(5).set(ClassSet::of(&[FIBRE])).set.names(belt::FILM));
    /// ```
    #[must_use]
    pub const fn set(self, set: ClassSet) -> Self {
        Self { set, ..self }
    }

    /// Its header from this bit of the first byte on, 0 to 7.
    ///
    /// ```
    /// assert_eq!(belt::Settings::elect(5).start(3).start, 3);
    /// ```
    #[must_use]
    pub const fn start(self, start: usize) -> Self {
        Self { start, ..self }
    }

    /// As the library has them.
    pub(crate) fn raw(self) -> raw::Settings {
        let Settings { frame, gm_type, reference, flag, trim, elect, set, start } = self;
        raw::Settings { frame, gm_type, reference, flag, trim, elect, set: set.bits(), start }
    }
}

/// [`Settings::elect`] of frame 1.
impl Default for Settings {
    fn default() -> Self {
        Self::elect(1)
    }
}

/// The classes of samples that nobody sorted, for the largest frame.
static NONE_SORTED: [u8; MOST_SAMPLES] = [UNSORTED; MOST_SAMPLES];
/// The types of six references without a model.
static NO_TYPES: [u8; 6] = [GmType::Identity.code(); 6];
/// Their models, and the prior of a frame that has none before it.
static NO_MODELS: [StoredModel; 7] = IDENTITIES;

/// What a job is handed. Motion goes from the input to the reference: with the earlier frame as `input` it is the load's
/// own, with the later one its negative ([`Model::moved_since_reference`]).
///
/// The fields stay these: what differs from [`Task::new`] can be named.
///
/// ```
/// use belt::{METAL, Settings, Task};
///
/// let (earlier, later) = ([7; 32 * 16], [7; 32 * 16]);
/// let task = Task { settings: Settings::elect(5), classes: &[METAL; 2], ..Task::new(&earlier, &later, 32, 16) };
/// assert_eq!((task.types, task.models.len(), task.prior.len()), (&[0; 6][..], 6, 7));
/// ```
#[derive(Clone, Copy, Debug, PartialEq, Eq)]
pub struct Task<'a> {
    /// The plane whose motion is sought, row by row.
    pub input: &'a [u16],
    /// The plane that it is sought in.
    pub reference: &'a [u16],
    /// The width of both, in pels, at most [`MOST_SIDE`].
    pub width: usize,
    /// The height of both, in pels, at most [`MOST_SIDE`].
    pub height: usize,
    /// Frame number, type, reference, flag, trim code, elect code, set of classes and start.
    pub settings: Settings,
    /// A class for each whole 16×16 block: [`sample_count`] of them.
    pub classes: &'a [u8],
    /// The types of the six other references, rising.
    pub types: &'a [u8],
    /// Their six models.
    pub models: &'a [StoredModel],
    /// The seven models of the prior; in a run its own is taken, and this isn't looked at.
    pub prior: &'a [StoredModel],
}

impl<'a> Task<'a> {
    /// These planes by [`Settings::default`], every block unsorted, the six other references and the prior without
    /// motion.
    ///
    /// ```
    /// use belt::{Settings, Task};
    ///
    /// let plane = [7; 48 * 32];
    /// let task = Task::new(&plane, &plane, 48, 32);
    /// assert_eq!((task.settings, task.classes), (Settings::elect(1), &[belt::UNSORTED; 6][..]));
    /// ```
    #[must_use]
    pub fn new(input: &'a [u16], reference: &'a [u16], width: usize, height: usize) -> Self {
        Self {
            input,
            reference,
            width,
            height,
            settings: Settings::default(),
            // sides over the most are refused before the classes are judged
            classes: &NONE_SORTED[..sample_count(width, height).min(MOST_SAMPLES)],
            types: &NO_TYPES,
            models: &NO_MODELS[..6],
            prior: &NO_MODELS,
        }
    }

    /// The lists that a job judges, but for the prior.
    pub(crate) fn lists(&self) -> [Length; 5] {
        let [input, reference, classes] = planes(self.input, self.reference, self.classes, self.width, self.height);
        [input, reference, classes, Length::of("types", self.types, 6), Length::of("models", self.models, 6)]
    }
}

/// What a job is handed that begins with its words: those of a search, in bands or elsewhere, or others that rise by row
/// and column and have class bits zero.
///
/// The fields stay these: what differs from [`WordTask::new`] can be named.
///
/// ```
/// use belt::{METAL, Settings, WordTask};
///
/// let words = [223 << 11 | 223 << 2, 1 << 20 | 223 << 11 | 223 << 2];
/// let task = WordTask { settings: Settings::elect(5), classes: &[METAL; 2], ..WordTask::new(&words) };
/// assert_eq!((task.types, task.models.len(), task.prior.len()), (&[0; 6][..], 6, 7));
/// ```
#[derive(Clone, Copy, Debug, PartialEq, Eq)]
pub struct WordTask<'a> {
    /// A word for each sample, rising, with class bits zero.
    pub words: &'a [u32],
    /// As of a [`Task`].
    pub settings: Settings,
    /// A class for each word.
    pub classes: &'a [u8],
    /// The types of the six other references, rising.
    pub types: &'a [u8],
    /// Their six models.
    pub models: &'a [StoredModel],
    /// The seven models of the prior; in a run its own is taken, and this isn't looked at.
    pub prior: &'a [StoredModel],
}

impl<'a> WordTask<'a> {
    /// These words by [`Settings::default`], every sample unsorted, the six other references and the prior without
    /// motion.
    ///
    /// ```
    /// use belt::{Settings, WordTask};
    ///
    /// let task = WordTask::new(&[223 << 11 | 223 << 2]);
    /// assert_eq!((task.settings, task.classes), (Settings::elect(1), &[belt::UNSORTED][..]));
    /// ```
    #[must_use]
    pub fn new(words: &'a [u32]) -> Self {
        Self {
            words,
            settings: Settings::default(),
            // more words than the most are refused before the classes are judged
            classes: &NONE_SORTED[..words.len().min(MOST_SAMPLES)],
            types: &NO_TYPES,
            models: &NO_MODELS[..6],
            prior: &NO_MODELS,
        }
    }

    /// The settings and lists of a task, with these words in the place of its planes.
    ///
    /// ```
    /// use belt::{Settings, Task, WordTask};
    ///
    /// let plane = [7; 16 * 16];
    /// let task = Task { settings: Settings::elect(5), ..Task::new(&plane, &plane, 16, 16) };
    /// assert_eq!(WordTask::of(&task, &[223 << 11 | 223 << 2]).settings.frame, 5);
    /// ```
    #[must_use]
    pub fn of(task: &Task<'a>, words: &'a [u32]) -> Self {
        let Task { settings, classes, types, models, prior, .. } = *task;
        Self { words, settings, classes, types, models, prior }
    }

    /// The lists that a job of words judges, but for the prior.
    pub(crate) fn lists(&self) -> [Length; 3] {
        [
            Length::of("classes", self.classes, self.words.len()),
            Length::of("types", self.types, 6),
            Length::of("models", self.models, 6),
        ]
    }

    /// The buffers of such a job, whose blocks are of a form.
    pub(crate) fn rooms(&self, blocks: &[u8], header: &[u8], form: Form) -> [Length; 2] {
        [Length::of("blocks", blocks, block_bytes(self.words.len(), form)), Length::of("header", header, HEADER_BYTES)]
    }
}

/// What a job is lent.
#[derive(Debug, PartialEq, Eq)]
pub struct Lent<'a> {
    /// Room for the input's half plane: [`half_plane_values`].
    pub input_half: &'a mut [u16],
    /// Room for the reference's half plane: [`half_plane_values`].
    pub ref_half: &'a mut [u16],
    /// Room for a word for each sample.
    pub words: &'a mut [u32],
    /// Room for the frame's blocks, of [`Form::Two`] or, in a run, of the form that it holds: [`block_bytes`].
    pub blocks: &'a mut [u8],
    /// Room for [`HEADER_BYTES`].
    pub header: &'a mut [u8],
}

impl Lent<'_> {
    /// The buffers of a job whose blocks are of a form.
    pub(crate) fn rooms(&self, task: &Task<'_>, form: Form) -> [Length; 5] {
        let [input_half, ref_half, words] = rooms(self.input_half, self.ref_half, self.words, task.width, task.height);
        let blocks = Length::of("blocks", self.blocks, block_bytes(words.wanted, form));
        [input_half, ref_half, words, blocks, Length::of("header", self.header, HEADER_BYTES)]
    }
}

/// A job's memory, of the lengths that planes of given sides need, for any number of jobs.
#[derive(Clone, Debug, PartialEq, Eq)]
pub struct Buffers {
    /// The input's half plane.
    pub input_half: Vec<u16>,
    /// The reference's half plane.
    pub ref_half: Vec<u16>,
    /// The sample words.
    pub words: Vec<u32>,
    /// The frame's blocks.
    pub blocks: Vec<u8>,
    /// The header.
    pub header: Vec<u8>,
}

impl Buffers {
    /// Zeros, as many as planes of these sides need. Sides over [`MOST_SIDE`], which every call refuses, count as it.
    ///
    /// ```
    /// let buffers = belt::Buffers::new(176, 160);
    /// assert_eq!((buffers.words.len(), buffers.blocks.len(), buffers.header.len()), (110, 2 * 512, 125));
    /// assert_eq!(buffers.input_half.len(), 88 * 80);
    /// ```
    #[must_use]
    pub fn new(width: usize, height: usize) -> Self {
        let (width, height) = (width.min(MOST_SIDE), height.min(MOST_SIDE));
        let (samples, half) = (sample_count(width, height), half_plane_values(width, height));
        Self {
            input_half: vec![0; half],
            ref_half: vec![0; half],
            words: vec![0; samples],
            blocks: vec![0; block_bytes(samples, Form::Two)],
            header: vec![0; HEADER_BYTES],
        }
    }

    /// All of it, lent.
    ///
    /// ```
    /// use belt::{Buffers, Task};
    ///
    /// let plane = [7; 64 * 48];
    /// let mut buffers = Buffers::new(64, 48);
    /// let report = belt::job(&Task::new(&plane, &plane, 64, 48), &mut buffers.lend())?;
    /// assert_eq!(report.samples, buffers.words.len());
    /// # Ok::<(), belt::Refusal>(())
    /// ```
    pub fn lend(&mut self) -> Lent<'_> {
        Lent {
            input_half: &mut self.input_half,
            ref_half: &mut self.ref_half,
            words: &mut self.words,
            blocks: &mut self.blocks,
            header: &mut self.header,
        }
    }

    /// Searches the planes of a task on so many threads: half planes and words, as [`crate::search_parallel`] leaves them.
    ///
    /// ```
    /// use belt::{Buffers, Task};
    ///
    /// let plane = [7; 64 * 48];
    /// let mut buffers = Buffers::new(64, 48);
    /// let found = buffers.search_parallel(&Task::new(&plane, &plane, 64, 48), 2)?;
    /// assert_eq!((found.samples, found.rows), (12, 12 * 736));
    /// # Ok::<(), belt::Refusal>(())
    /// ```
    ///
    /// # Errors
    ///
    /// Those of [`crate::collect_motion_samples`].
    #[cfg(feature = "std")]
    pub fn search_parallel(&mut self, task: &Task<'_>, threads: usize) -> Result<Searched, Refusal> {
        let Task { input, reference, width, height, classes, .. } = *task;
        let Lent { input_half, ref_half, words, .. } = self.lend();
        crate::search_parallel(input, reference, width, height, classes, input_half, ref_half, words, threads)
    }
}

/// What a job reports.
#[derive(Clone, Copy, Debug, PartialEq)]
#[non_exhaustive]
pub struct Report {
    /// The types of references 1 to 7, as codes; the job's own model has the type asked for or elected.
    pub types: [u8; 7],
    /// The models of references 1 to 7.
    pub models: [StoredModel; 7],
    /// The reference of the job's own model, 1 to 7.
    pub reference: u8,
    /// The mean squared residual of the job's own model over the samples of the classes that it names, in square pels.
    pub score: f64,
    /// The bits of the header.
    pub bits: usize,
    /// How many samples there are.
    pub samples: usize,
}

impl Report {
    /// The type of the job's own model.
    ///
    /// ```
    /// use belt::{Buffers, GmType, Task};
    ///
    /// let still = [7; 64 * 48];
    /// let report = belt::job(&Task::new(&still, &still, 64, 48), &mut Buffers::new(64, 48).lend())?;
    /// assert_eq!(report.gm_type(), GmType::Identity);
    /// # Ok::<(), belt::Refusal>(())
    /// ```
    #[must_use]
    pub fn gm_type(&self) -> GmType {
        GmType::answered(self.types[self.place()])
    }

    /// The job's own model, x first.
    ///
    /// ```
    /// use belt::{Buffers, GmType, Settings, Task};
    ///
    /// let (mut earlier, mut later) = ([0; 64 * 48], [0; 64 * 48]);
    /// belt::make_practice_planes(1, 64, 48, -2, 4, &mut earlier, &mut later)?;
    /// let settings = Settings::fit(5, GmType::Translation).trim().reference(2);
    /// let task = Task { settings, ..Task::new(&earlier, &later, 64, 48) };
    /// let report = belt::job(&task, &mut Buffers::new(64, 48).lend())?;
    /// assert_eq!((report.model().shift().u, report.model().shift().v), (4.0, -2.0));
    /// assert_eq!(report.model(), report.models[1].x_first(report.types[1]));
    /// # Ok::<(), belt::Refusal>(())
    /// ```
    #[must_use]
    pub fn model(&self) -> Model {
        self.models[self.place()].x_first(self.types[self.place()])
    }

    fn place(&self) -> usize {
        usize::from(self.reference) - 1
    }

    /// The row and the report of a job by these settings.
    pub(crate) fn of_raw(report: raw::Report, settings: Settings) -> (u32, Self) {
        let raw::Report { refusal, types, models, score, bits, samples } = report;
        (refusal, Self { types, models, reference: settings.reference, score, bits, samples })
    }
}

/// Runs a whole job: search, fit, grid, score, blocks and header ('Job'). A job that elects has type, model and score of
/// [`crate::elect_by_class`] over its words. Fit, score and election go by the set of the settings; blocks hold every
/// sample.
///
/// # Errors
///
/// [`Refusal::TooLarge`], [`Refusal::WrongLength`], [`Refusal::NoSuchCode`], [`Refusal::NoClass`], [`Refusal::NoSuchSlot`],
/// [`Refusal::StartOver`], [`Refusal::OffGrid`], [`Refusal::PriorOut`], [`Refusal::TooShort`], [`Refusal::TooFew`],
/// [`Refusal::ShutterClosed`], [`Refusal::Singular`], [`Refusal::NotFinite`]. After the last two the half planes and the
/// words are in their buffers; blocks and header are as they were. A job that elects isn't refused with
/// [`Refusal::TooFew`] or [`Refusal::Singular`].
///
/// ```
/// use belt::{Buffers, GmType, IDENTITIES, Precision, Task};
///
/// // a belt that runs 4 pels to the right and 2 up between two frames
/// let (mut earlier, mut later) = ([0; 64 * 48], [0; 64 * 48]);
/// belt::make_practice_planes(1, 64, 48, -2, 4, &mut earlier, &mut later)?;
/// let mut buffers = Buffers::new(64, 48);
/// let report = belt::job(&Task::new(&earlier, &later, 64, 48), &mut buffers.lend())?;
/// assert_eq!((report.gm_type(), report.score < 0.25), (GmType::Translation, true));
/// let read = belt::read_global_motion_params(&buffers.header, 0, Precision::High, &IDENTITIES)?;
/// assert_eq!((read.types, read.models, read.bits), (report.types, report.models, report.bits));
/// # Ok::<(), belt::Refusal>(())
/// ```
pub fn job(task: &Task<'_>, lent: &mut Lent<'_>) -> Result<Report, Refusal> {
    let report = raw::job(
        task.input,
        task.reference,
        task.width,
        task.height,
        task.settings.raw(),
        task.classes,
        task.types,
        raw::numbers(task.models),
        raw::numbers(task.prior),
        lent.input_half,
        lent.ref_half,
        lent.words,
        lent.blocks,
        lent.header,
    );
    let (refusal, report) = Report::of_raw(report, task.settings);
    judged_lists(
        refusal,
        report,
        || {
            let [input, reference, classes, types, models] = task.lists();
            [input, reference, classes, types, models, Length::of("prior", task.prior, 7)]
        },
        || lent.rooms(task, Form::Two),
    )
}

/// Runs a job from its words on ('Job'): fit, grid, score, blocks and header. With the words of a search, in bands or not,
/// it reports what [`job`] does, and leaves the same blocks and the same header.
///
/// # Errors
///
/// Those of [`job`], [`Refusal::TooLarge`] and [`Refusal::WrongLength`] by the words, and, behind [`Refusal::PriorOut`],
/// [`Refusal::NotRising`]. Blocks and header are then as they were, whatever the row.
///
/// ```
/// use belt::{Buffers, Task, WordTask};
///
/// let (mut earlier, mut later) = ([0; 64 * 48], [0; 64 * 48]);
/// belt::make_practice_planes(1, 64, 48, -2, 4, &mut earlier, &mut later)?;
/// let (task, mut buffers) = (Task::new(&earlier, &later, 64, 48), Buffers::new(64, 48));
/// buffers.search_parallel(&task, 2)?;
/// let Buffers { words, blocks, header, .. } = &mut buffers;
/// let report = belt::job_of_words(&WordTask::of(&task, words), blocks, header)?;
///
/// let mut others = Buffers::new(64, 48);
/// assert_eq!(belt::job(&task, &mut others.lend()), Ok(report));
/// assert_eq!(buffers, others);
/// # Ok::<(), belt::Refusal>(())
/// ```
pub fn job_of_words(task: &WordTask<'_>, blocks: &mut [u8], header: &mut [u8]) -> Result<Report, Refusal> {
    let WordTask { words, settings, classes, types, models, prior } = *task;
    let (models, numbers) = (raw::numbers(models), raw::numbers(prior));
    let report = raw::job_of_words(words, settings.raw(), classes, types, models, numbers, blocks, header);
    let (refusal, report) = Report::of_raw(report, settings);
    judged_lists(
        refusal,
        report,
        || {
            let [classes, types, models] = task.lists();
            [classes, types, models, Length::of("prior", prior, 7)]
        },
        || task.rooms(blocks, header, Form::Two),
    )
}

/// [`job`] on so many threads, this one among them, which share its search ([`crate::search_parallel`]): the same report
/// and the same buffers, bit for bit, refused and accepted alike.
///
/// # Errors
///
/// Those of [`job`].
///
/// ```
/// use belt::{Buffers, Task};
///
/// let (mut earlier, mut later) = ([0; 96 * 80], [0; 96 * 80]);
/// belt::make_practice_planes(1, 96, 80, -2, 4, &mut earlier, &mut later)?;
/// let (task, mut buffers) = (Task::new(&earlier, &later, 96, 80), Buffers::new(96, 80));
/// let threads = std::thread::available_parallelism().map_or(1, |count| count.get());
/// let report = belt::job_parallel(&task, &mut buffers.lend(), threads)?;
///
/// let mut others = Buffers::new(96, 80);
/// assert_eq!(belt::job(&task, &mut others.lend()), Ok(report));
/// assert_eq!(buffers, others);
/// # Ok::<(), belt::Refusal>(())
/// ```
#[cfg(feature = "std")]
pub fn job_parallel(task: &Task<'_>, lent: &mut Lent<'_>, threads: usize) -> Result<Report, Refusal> {
    if !searched_first(task, lent, Form::Two, threads, |none| job(task, none)) {
        return job(task, lent);
    }
    let words = &lent.words[..sample_count(task.width, task.height)];
    job_of_words(&WordTask::of(task, words), lent.blocks, lent.header)
}

/// The samples that every trimmed fit has enough of.
#[cfg(feature = "std")]
const ENOUGH_TO_TRIM: usize = 8;

/// Searches the planes of a task on so many threads, unless its job may refuse it before its search; says whether it
/// did. `judge` runs that job: on no room at all the answer is a row that stands before the room's, or that.
#[cfg(feature = "std")]
pub(crate) fn searched_first(
    task: &Task<'_>,
    lent: &mut Lent<'_>,
    form: Form,
    threads: usize,
    judge: impl FnOnce(&mut Lent<'_>) -> Result<Report, Refusal>,
) -> bool {
    let Task { input, reference, width, height, settings, classes, .. } = *task;
    let mut none = Lent { input_half: &mut [], ref_half: &mut [], words: &mut [], blocks: &mut [], header: &mut [] };
    let early = !matches!(judge(&mut none), Err(Refusal::TooShort(_)));
    let rooms = lent.rooms(task, form);
    if early || sample_count(width, height) == 0 || rooms.iter().any(|room| room.given < room.wanted) {
        return false;
    }
    // the two rows behind the room's
    let named = || classes.iter().filter(|&&class| settings.set.names(class)).count();
    if settings.frame == 0 || settings.trim == 1 && settings.elect == 0 && named() < ENOUGH_TO_TRIM {
        return false;
    }
    searched([input, reference], width, height, [lent.input_half, lent.ref_half], lent.words, threads);
    true
}
