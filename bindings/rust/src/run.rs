//! Runs of frames (docs/RULES.md, 'A run of frames').

use crate::codes::byte;
use crate::refusal::{judged, judged_lists};
use crate::{
    Code, Form, HEADER_BYTES, Kind, Length, Lent, Models, Precision, Refusal, Report, StoredModel, Task, WordTask,
    block_bytes, raw,
};
#[cfg(feature = "std")]
use crate::{job::searched_first, sample_count};

/// The switch code to low precision.
pub const TO_LOW_PRECISION: u8 = 0;
/// The switch code to high precision.
pub const TO_HIGH_PRECISION: u8 = 1;
/// The switch code to form 2, from which there is no way back.
pub const TO_FORM_2: u8 = 2;

/// A run of frames that is recorded ('A run of frames'): the prior of its next inter frame, its flag and its form.
///
/// The prior is identity at first; after an accepted inter frame or job it is that one's models, after a key frame
/// identity again. A call that refuses leaves the run as it was. Two runs begun alike are equal as long as the same was
/// accepted; a [`RunReader`] begun alike gives the models back.
///
/// ```
/// use belt::{Form, IDENTITIES, Kind, Precision, Refusal, Run, RunReader, StoredModel, TO_LOW_PRECISION};
///
/// let mut run = Run::start(Precision::High, Form::One)?;
/// let mut reader = RunReader::start(Precision::High, Form::One)?;
/// let types = [1, 0, 0, 0, 0, 0, 0];
/// let mut models = IDENTITIES;
/// models[0] = StoredModel([8192, -8192, 65536, 0, 0, 65536]);
/// for bytes in [[0xA4, 0x20, 0x00], [0xA0, 0x00, 0x00]] {
///     let mut header = [0xFF; 3];
///     assert_eq!(run.frame(Kind::Inter, &types, &models, 0, &mut header), Ok(17));
///     assert_eq!(header, bytes);
///     assert_eq!(reader.read(Kind::Inter, &header, 0)?.models, models);
/// }
/// run.switch(TO_LOW_PRECISION)?;
/// reader.switch(TO_LOW_PRECISION)?;
/// models[0] = StoredModel([24576, -8192, 65536, 0, 0, 65536]);
/// let before = run;
/// assert_eq!(run.frame(Kind::Inter, &types, &models, 0, &mut [0; 3]), Err(Refusal::OffGrid));
/// assert_eq!(run, before);
/// assert_eq!(run.switch(3), Err(Refusal::NoSuchCode));
/// assert_eq!(run.frame(Kind::Key, &[0; 7], &IDENTITIES, 2, &mut []), Ok(0));
/// reader.read(Kind::Key, &[], 2)?;
/// assert_eq!((run.prior(), reader.prior()), (&IDENTITIES, &IDENTITIES));
/// # Ok::<(), Refusal>(())
/// ```
#[derive(Clone, Copy, Debug, PartialEq, Eq)]
#[non_exhaustive]
pub struct Run(raw::Run);

/// The reader of a [`Run`]: begun alike, and given in the same order the switches and the frames that were accepted, it
/// gives each frame's models. A call that refuses leaves it as it was.
#[derive(Clone, Copy, Debug, PartialEq, Eq)]
#[non_exhaustive]
pub struct RunReader(raw::Run);

fn started(precision: impl Code<Precision>, form: impl Code<Form>) -> Result<raw::Run, Refusal> {
    let raw::Moved { refusal, run } = raw::run_start(byte(precision), form.number());
    judged(refusal, run)
}

fn switched(run: &mut raw::Run, code: u8) -> Result<(), Refusal> {
    let moved = raw::run_switch(*run, code);
    *run = moved.run;
    judged(moved.refusal, ())
}

/// What runs and their readers have alike.
macro_rules! held {
    ($name:ident) => {
        impl $name {
            /// Begins with a precision and a form, by name or by code; the first prior is identity.
            ///
            /// # Errors
            ///
            /// [`Refusal::NoSuchCode`].
            ///
            /// ```
            #[doc = concat!("use belt::{Form, Precision, Refusal, ", stringify!($name), "};")]
            ///
            #[doc = concat!("let begun = ", stringify!($name), "::start(Precision::High, Form::Two)?;")]
            /// assert_eq!((begun.flag(), begun.form()), (1, 2));
            #[doc = concat!("assert_eq!(", stringify!($name), "::start(2, 1), Err(Refusal::NoSuchCode));")]
            /// # Ok::<(), Refusal>(())
            /// ```
            pub fn start(precision: impl Code<Precision>, form: impl Code<Form>) -> Result<Self, Refusal> {
                started(precision, form).map(Self)
            }

            /// One that was kept elsewhere. Each call judges it: a bad flag or form is [`Refusal::NoSuchCode`], a prior
            /// out of range [`Refusal::PriorOut`].
            ///
            /// ```
            #[doc = concat!("use belt::{IDENTITIES, Refusal, ", stringify!($name), ", TO_FORM_2};")]
            ///
            #[doc = concat!("let begun = ", stringify!($name), "::start(1, 1)?;")]
            #[doc = concat!("let again = ", stringify!($name), "::of_parts(*begun.prior(), begun.flag(), begun.form());")]
            /// assert_eq!(again, begun);
            #[doc = concat!("let mut bad = ", stringify!($name), "::of_parts(IDENTITIES, 1, 3);")]
            /// assert_eq!(bad.switch(TO_FORM_2), Err(Refusal::NoSuchCode));
            /// # Ok::<(), Refusal>(())
            /// ```
            #[must_use]
            pub const fn of_parts(prior: [StoredModel; 7], flag: u8, form: u32) -> Self {
                Self(raw::Run { prior, flag, form })
            }

            /// The prior of the next inter frame.
            ///
            /// ```
            #[doc = concat!("assert_eq!(belt::", stringify!($name), "::start(1, 2)?.prior(), &belt::IDENTITIES);")]
            /// # Ok::<(), belt::Refusal>(())
            /// ```
            #[must_use]
            pub const fn prior(&self) -> &[StoredModel; 7] {
                &self.0.prior
            }

            /// 1 for high precision, else 0: a [`Precision`].
            ///
            /// ```
            /// use belt::Precision;
            ///
            #[doc = concat!("let begun = belt::", stringify!($name), "::start(Precision::High, 2)?;")]
            /// assert_eq!(Precision::try_from(begun.flag()), Ok(Precision::High));
            /// # Ok::<(), belt::Refusal>(())
            /// ```
            #[must_use]
            pub const fn flag(&self) -> u8 {
                self.0.flag
            }

            /// The form that frames are stored in, 1 or 2: a [`Form`].
            ///
            /// ```
            /// use belt::Form;
            ///
            #[doc = concat!("let begun = belt::", stringify!($name), "::start(1, Form::One)?;")]
            /// assert_eq!(Form::try_from(begun.form()), Ok(Form::One));
            /// # Ok::<(), belt::Refusal>(())
            /// ```
            #[must_use]
            pub const fn form(&self) -> u32 {
                self.0.form
            }

            /// Between two frames, by code: [`TO_LOW_PRECISION`], [`TO_HIGH_PRECISION`] or [`TO_FORM_2`]. The prior
            /// stays.
            ///
            /// # Errors
            ///
            /// [`Refusal::NoSuchCode`], [`Refusal::PriorOut`] of the run itself.
            ///
            /// ```
            /// use belt::{Form, Precision, Refusal, TO_FORM_2, TO_LOW_PRECISION};
            ///
            #[doc = concat!("let mut begun = belt::", stringify!($name), "::start(Precision::High, Form::One)?;")]
            /// begun.switch(TO_LOW_PRECISION)?;
            /// begun.switch(TO_FORM_2)?;
            /// assert_eq!((begun.flag(), begun.form()), (0, 2));
            /// assert_eq!(begun.switch(3), Err(Refusal::NoSuchCode));
            /// # Ok::<(), Refusal>(())
            /// ```
            pub fn switch(&mut self, code: u8) -> Result<(), Refusal> {
                switched(&mut self.0, code)
            }
        }
    };
}

held!(Run);
held!(RunReader);

impl Run {
    /// The form held; of a run that every call refuses it doesn't matter.
    fn form_held(&self) -> Form {
        if self.0.form == 1 { Form::One } else { Form::Two }
    }

    /// Writes a frame of either kind with the run's flag and prior, as [`crate::encode_global_motion`] does; answers how
    /// many bits. Its models become the prior.
    ///
    /// # Errors
    ///
    /// [`Refusal::WrongLength`], [`Refusal::NoSuchCode`] (the run's flag and form too), [`Refusal::StartOver`],
    /// [`Refusal::OffGrid`], [`Refusal::PriorOut`] (the run's prior, of a key frame too), [`Refusal::TooShort`].
    ///
    /// ```
    /// use belt::{Form, IDENTITIES, Kind, Precision, Run, StoredModel};
    ///
    /// let mut run = Run::start(Precision::High, Form::Two)?;
    /// let mut models = IDENTITIES;
    /// models[0] = StoredModel([8192, -8192, 65536, 0, 0, 65536]);
    /// let mut header = [0; belt::HEADER_BYTES];
    /// assert_eq!(run.frame(Kind::Inter, &[1, 0, 0, 0, 0, 0, 0], &models, 0, &mut header), Ok(17));
    /// assert_eq!(run.prior(), &models);
    /// # Ok::<(), belt::Refusal>(())
    /// ```
    pub fn frame(
        &mut self,
        kind: Kind,
        types: &[u8],
        models: &[StoredModel],
        start: usize,
        header: &mut [u8],
    ) -> Result<usize, Refusal> {
        let (before, intra, numbers) = (self.0, kind == Kind::Key, raw::numbers(models));
        let raw::Framed { written, run } = raw::run_frame(before, intra, types, numbers, start, header);
        self.0 = run;
        // a header that was refused for its room alone, into room that is always enough
        let wanted = || {
            let mut room = [0; HEADER_BYTES];
            let bits = raw::run_frame(before, intra, types, numbers, start, &mut room).written.bits;
            (start + bits).div_ceil(8)
        };
        judged_lists(
            written.refusal,
            written.bits,
            || [Length::of("types", types, 7), Length::of("models", models, 7)],
            || [Length::of("header", header, wanted())],
        )
    }

    /// Stores a frame's words and classes in the form that the run holds, as [`crate::write_frame`] does in form 2;
    /// answers how many blocks. Nothing in the run moves.
    ///
    /// # Errors
    ///
    /// [`Refusal::TooLarge`], [`Refusal::WrongLength`], [`Refusal::NoSuchCode`] and [`Refusal::PriorOut`] (of the run
    /// too), [`Refusal::NotRising`], [`Refusal::NotHeld`] (class [`crate::FILM`] in form 1), [`Refusal::TooShort`],
    /// [`Refusal::ShutterClosed`], also without words.
    ///
    /// ```
    /// use belt::{FILM, Form, METAL, Precision, Refusal, Run, TO_FORM_2};
    ///
    /// let mut run = Run::start(Precision::High, Form::One)?;
    /// let mut block = [0; belt::BLOCK_BYTES];
    /// assert_eq!(run.store(5, &[0x0006_FB7C], &[FILM], &mut block), Err(Refusal::NotHeld));
    /// assert_eq!(run.store(5, &[0x0006_FB7C], &[METAL], &mut block), Ok(1));
    /// assert_eq!((block[2], &block[508..]), (1, &[0x00, 0x0C, 0xFC, 0x81][..]));
    /// run.switch(TO_FORM_2)?;
    /// assert_eq!(run.store(5, &[0x0006_FB7C], &[FILM], &mut block), Ok(1));
    /// assert_eq!((block[2], &block[508..]), (2, &[0x04, 0x0C, 0xFD, 0x7E][..]));
    /// # Ok::<(), Refusal>(())
    /// ```
    pub fn store(&self, frame: u16, words: &[u32], classes: &[u8], blocks: &mut [u8]) -> Result<usize, Refusal> {
        let stored = raw::run_store(self.0, frame, words, classes, blocks);
        judged_lists(
            stored.refusal,
            stored.blocks,
            || [Length::of("classes", classes, words.len())],
            || [Length::of("blocks", blocks, block_bytes(words.len(), self.form_held()))],
        )
    }

    /// Runs a whole job as an inter frame of the run, with its prior, flag and form: `task.prior` and the flag of the
    /// settings aren't looked at. The seven models that it reports become the prior.
    ///
    /// # Errors
    ///
    /// Those of [`crate::job`], and [`Refusal::NotHeld`] where a class is [`crate::FILM`] in form 1, whichever are named;
    /// [`Refusal::NoSuchCode`] and [`Refusal::PriorOut`] are the run's too.
    ///
    /// ```
    /// use belt::{Buffers, Form, Kind, Precision, Run, RunReader, Settings, Task};
    ///
    /// let (mut earlier, mut later) = ([0; 96 * 80], [0; 96 * 80]);
    /// belt::make_practice_planes(1, 96, 80, -2, 4, &mut earlier, &mut later)?;
    /// let mut run = Run::start(Precision::High, Form::Two)?;
    /// let mut reader = RunReader::start(Precision::High, Form::Two)?;
    /// let mut buffers = Buffers::new(96, 80);
    /// let mut bits = Vec::new();
    /// for frame in [1, 2] {
    ///     let task = Task { settings: Settings::elect(frame), ..Task::new(&earlier, &later, 96, 80) };
    ///     let report = run.job(&task, &mut buffers.lend())?;
    ///     assert_eq!(reader.read(Kind::Inter, &buffers.header, 0)?.models, report.models);
    ///     bits.push(report.bits);
    /// }
    /// assert!(bits[1] < bits[0], "the same motion again is cheaper");
    /// # Ok::<(), belt::Refusal>(())
    /// ```
    pub fn job(&mut self, task: &Task<'_>, lent: &mut Lent<'_>) -> Result<Report, Refusal> {
        let form = self.form_held();
        let raw::JobDone { report, run } = raw::run_job(
            self.0,
            task.input,
            task.reference,
            task.width,
            task.height,
            task.settings.raw(),
            task.classes,
            task.types,
            raw::numbers(task.models),
            lent.input_half,
            lent.ref_half,
            lent.words,
            lent.blocks,
            lent.header,
        );
        self.0 = run;
        let (refusal, report) = Report::of_raw(report, task.settings);
        judged_lists(refusal, report, || task.lists(), || lent.rooms(task, form))
    }

    /// Runs a job from its words on as an inter frame of the run, as [`crate::job_of_words`] does outside one, and as
    /// [`Run::job`] with the run's prior, flag and form.
    ///
    /// # Errors
    ///
    /// Those of [`crate::job_of_words`], and, behind [`Refusal::NotRising`], [`Refusal::NotHeld`] where a class is
    /// [`crate::FILM`] in form 1.
    ///
    /// ```
    /// use belt::{Buffers, Form, Precision, Run, Task, WordTask};
    ///
    /// let (mut earlier, mut later) = ([0; 96 * 80], [0; 96 * 80]);
    /// belt::make_practice_planes(1, 96, 80, -2, 4, &mut earlier, &mut later)?;
    /// let (task, mut buffers) = (Task::new(&earlier, &later, 96, 80), Buffers::new(96, 80));
    /// let mut run = Run::start(Precision::High, Form::One)?;
    /// let mut other = run;
    /// buffers.search_parallel(&task, 2)?;
    /// let Buffers { words, blocks, header, .. } = &mut buffers;
    /// let report = run.job_of_words(&WordTask::of(&task, words), blocks, header)?;
    /// assert_eq!(other.job(&task, &mut Buffers::new(96, 80).lend()), Ok(report));
    /// assert_eq!(run, other);
    /// # Ok::<(), belt::Refusal>(())
    /// ```
    pub fn job_of_words(
        &mut self,
        task: &WordTask<'_>,
        blocks: &mut [u8],
        header: &mut [u8],
    ) -> Result<Report, Refusal> {
        let form = self.form_held();
        let WordTask { words, settings, classes, types, models, .. } = *task;
        let raw::JobDone { report, run } =
            raw::run_job_of_words(self.0, words, settings.raw(), classes, types, raw::numbers(models), blocks, header);
        self.0 = run;
        let (refusal, report) = Report::of_raw(report, settings);
        judged_lists(refusal, report, || task.lists(), || task.rooms(blocks, header, form))
    }

    /// [`Run::job`] on so many threads, as [`crate::job_parallel`] is [`crate::job`]: the same report, the same buffers
    /// and the same run, bit for bit.
    ///
    /// # Errors
    ///
    /// Those of [`Run::job`].
    ///
    /// ```
    /// use belt::{Buffers, Form, Precision, Run, Task};
    ///
    /// let (mut earlier, mut later) = ([0; 96 * 80], [0; 96 * 80]);
    /// belt::make_practice_planes(1, 96, 80, -2, 4, &mut earlier, &mut later)?;
    /// let (task, mut buffers) = (Task::new(&earlier, &later, 96, 80), Buffers::new(96, 80));
    /// let mut run = Run::start(Precision::High, Form::Two)?;
    /// let mut other = run;
    /// let report = run.job_parallel(&task, &mut buffers.lend(), 2)?;
    /// assert_eq!(other.job(&task, &mut Buffers::new(96, 80).lend()), Ok(report));
    /// assert_eq!(run, other);
    /// # Ok::<(), belt::Refusal>(())
    /// ```
    #[cfg(feature = "std")]
    pub fn job_parallel(&mut self, task: &Task<'_>, lent: &mut Lent<'_>, threads: usize) -> Result<Report, Refusal> {
        // a copy of the run is judged: what is refused moves nothing
        let mut judged = *self;
        if !searched_first(task, lent, self.form_held(), threads, |none| judged.job(task, none)) {
            return self.job(task, lent);
        }
        let words = &lent.words[..sample_count(task.width, task.height)];
        self.job_of_words(&WordTask::of(task, words), lent.blocks, lent.header)
    }
}

impl RunReader {
    /// Reads a frame that was written in a run, of either kind, from bit `at` of its header on, as
    /// [`crate::read_global_motion`] does with the flag and the prior. The models read become the prior.
    ///
    /// # Errors
    ///
    /// [`Refusal::NoSuchCode`] and [`Refusal::PriorOut`] of the reader itself, of a key frame too;
    /// [`Refusal::EndsFirst`].
    ///
    /// ```
    /// use belt::{Form, GmType, Kind, Precision, RunReader};
    ///
    /// let mut reader = RunReader::start(Precision::High, Form::Two)?;
    /// let read = reader.read(Kind::Inter, &[0xA4, 0x20, 0x00], 0)?;
    /// assert_eq!((read.x_first()[0].0, read.bits), (GmType::Translation, 17));
    /// assert_eq!(reader.prior(), &read.models);
    /// # Ok::<(), belt::Refusal>(())
    /// ```
    #[inline]
    pub fn read(&mut self, kind: Kind, header: &[u8], at: usize) -> Result<Models, Refusal> {
        let read = raw::run_read(self.0, kind == Kind::Key, header, at);
        self.0 = read.run;
        judged(read.models.refusal, Models::of_raw(&read.models))
    }
}
