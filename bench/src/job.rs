//! A whole job: by the proved library, and composed of the Rust's parts with the blocks of `frames`.

use belt::{Buffers, ClassSet, GmType, Model, Refusal, Report, Run, Settings, StoredModel, Task};
use oracle::Samples;

use crate::frames;
use crate::header::{Distance, Header};
use crate::inputs::{self, AFFINE, FRAME, HIGH_PRECISION, IDENTITY, Scene, WITHOUT_FILM};

/// The reference that the fitted model is for: the first of seven.
const REFERENCE: u8 = 1;

#[derive(Clone)]
pub struct Job {
    width: usize,
    height: usize,
    input: Vec<u16>,
    reference: Vec<u16>,
    classes: Vec<u8>,
    settings: Settings,
    header: Header,
}

/// The types, the models, the score, the header's bits and the samples that a job reports.
pub type Reported = ([u8; 7], [StoredModel; 7], f64, usize, usize);

impl Job {
    /// A textured scene with a fit of this type; the six other references have affine models.
    pub fn new(kind: u8, width: usize, height: usize) -> Self {
        let (input, reference) = Scene::Textured.pair(width, height, 0);
        let mut settings = Settings::fit(FRAME, GmType::Identity).reference(REFERENCE);
        (settings.gm_type, settings.flag) = (kind, HIGH_PRECISION);
        Self {
            width,
            height,
            input,
            reference,
            classes: inputs::classes(oracle::sample_count(width, height)),
            settings,
            header: Header::new(AFFINE, Distance::Near),
        }
    }

    /// The same scene with a type that is elected.
    pub fn electing(width: usize, height: usize) -> Self {
        let mut job = Self::new(IDENTITY, width, height);
        job.settings.elect = 1;
        job
    }

    /// The same job on another picture.
    pub fn on(mut self, picture: usize) -> Self {
        (self.input, self.reference) = Scene::Textured.pair(self.width, self.height, picture);
        self
    }

    /// The same job without the film.
    pub fn without_film(mut self) -> Self {
        self.settings.set = WITHOUT_FILM;
        self
    }

    fn with_task<T>(&self, work: impl FnOnce(&Task<'_>) -> T) -> T {
        work(&Task {
            input: &self.input,
            reference: &self.reference,
            width: self.width,
            height: self.height,
            settings: self.settings,
            classes: &self.classes,
            types: &self.header.types[1..],
            models: &self.header.models.map(StoredModel)[1..],
            prior: &self.header.prior.map(StoredModel),
        })
    }

    pub fn run(&self, lent: &mut Buffers) -> Result<Report, Refusal> {
        self.with_task(|task| belt::job(task, &mut lent.lend()))
    }

    /// The same on so many threads.
    pub fn run_on(&self, threads: usize, lent: &mut Buffers) -> Result<Report, Refusal> {
        self.with_task(|task| belt::job_parallel(task, &mut lent.lend(), threads))
    }

    /// The same in a run that holds the job's prior and flag, and a form.
    pub fn run_in(&self, form: u32, lent: &mut Buffers) -> Result<Report, Refusal> {
        let mut run = Run::of_parts(self.header.prior.map(StoredModel), self.settings.flag, form);
        self.with_task(|task| run.job(task, &mut lent.lend()))
    }

    /// Words, blocks and header go to the buffers.
    pub fn rust_run(&self, left: &mut Buffers) -> Option<Reported> {
        let Settings { frame, gm_type, elect, set, .. } = self.settings;
        let found = oracle::search(&self.input, &self.reference, self.width, self.height);
        for (word, sample) in left.words.iter_mut().zip(&found) {
            *word = oracle::word_of(sample);
        }
        let samples = match set {
            ClassSet::ALL => Samples::new(&found),
            _ => {
                let named = found.iter().zip(&self.classes).filter(|&(_, &class)| set.names(class));
                Samples::new(&named.map(|(&sample, _)| sample).collect::<Vec<_>>())
            }
        };
        let mut header = self.header;
        let score;
        if elect == 1 {
            let elected = samples.elect(true);
            (header.types[0], header.models[0], score) = (elected.kind, elected.params, elected.score);
        } else {
            let model = samples.quantize_model(&samples.fit(gm_type)?, gm_type, true);
            (header.types[0], header.models[0]) = (gm_type, Model(model).row_first(gm_type).0);
            score = samples.score(&model);
        }
        let (bytes, bits) = header.rust_write();
        left.header[..bytes.len()].copy_from_slice(&bytes);
        frames::write(frame, &left.words, &self.classes, &mut left.blocks).ok()?;
        let models = header.models.map(StoredModel);
        Some((header.types, models, score, bits, found.len()))
    }

    /// The half planes of the Rust, which its search keeps to itself.
    pub fn rust_halves(&self, left: &mut Buffers) {
        left.input_half = oracle::half_plane(&self.input, self.width, self.height);
        left.ref_half = oracle::half_plane(&self.reference, self.width, self.height);
    }
}
