//! The calls that are measured, each on both sides, and held to equal answers first.

use std::fmt;
use std::hint::black_box;

use belt::{Buffers, Fitted, Frame, Lent, Model, MotionSample, Refusal, Searched, StoredModel};
use oracle::Samples;

use crate::frames;
use crate::header::{Distance, Header};
use crate::inputs::{
    self, AFFINE, FRAME, HIGH_PRECISION, IDENTITY, PARAMS, ROTZOOM, Scene, TRANSLATION, WITHOUT_FILM, carried,
};
use crate::job::Job;
use crate::placing::{Field, Way, place};

/// What a ratio is held to.
const NOISE: f64 = 0.12;
const TEXTURED: f64 = 0.085;
const STATIC: f64 = 0.01;
const SMALL_SEARCH: f64 = 0.20;
const BY_HAND: f64 = 1.25;
const STATIC_BY_HAND: f64 = 2.0;
const JOB: f64 = 0.15;
const LARGE_JOB: f64 = 0.085;
const BLOCKS: f64 = 1.0;
const SMALL_SCORE: f64 = 1.3;
const SUMS: f64 = 1.1;
const MOTION_SUMS: f64 = 0.6;
const PRODUCT_SUMS: f64 = 0.85;
const SMALL_FITS: f64 = 1.2;
const TRIMMED: f64 = 1.0;
const SMALL_TRIMS: f64 = 1.5;
const SMALL_ELECTION: f64 = 1.4;
const HEADER_WRITTEN_NEAR: f64 = 1.4;
const HEADER_WRITTEN_FAR: f64 = 0.85;
const HEADER_READ_NEAR: f64 = 1.2;
const HEADER_READ_FAR: f64 = 0.7;
const IDENTITIES_READ: f64 = 2.2;

#[derive(Clone, Copy)]
pub enum Case {
    Search(Scene, usize, usize),
    /// Against the same search by hand in C.
    SearchByHand(Scene, usize, usize),
    Fit(u8, usize),
    FitSamples(u8, usize),
    Score(usize),
    ScoreSamples(usize),
    QuantizeModel(u8, usize),
    QuantizeTrimmed(u8, usize),
    QuantizeTrimmedSamples(u8, usize),
    Elect(usize),
    ElectSamples(usize),
    /// Without the film, which is a fifth of so many words or samples.
    FitByClass(u8, usize),
    QuantizeTrimmedByClass(u8, usize),
    ElectByClass(usize),
    FitSamplesByClass(u8, usize),
    QuantizeTrimmedSamplesByClass(u8, usize),
    ElectSamplesByClass(usize),
    WriteFrame(usize),
    ReadFrame(u8, usize),
    WriteHeader(u8, Distance),
    ReadHeader(u8, Distance),
    /// Fields of a width, and the fields of a header: a word at a time against one bit after the other.
    PlaceFields(u32),
    PlaceHeader(u8, Distance),
    WholeJob(u8, usize, usize),
    ElectingJob(usize, usize),
    JobByClass(u8, usize, usize),
    ElectingJobByClass(usize, usize),
}

use Case::*;

pub type Work = Box<dyn FnMut()>;

/// One call on the same input: ours, the Rust's, and the Rust's where it needn't read sample words.
pub struct Sides {
    pub ours: Work,
    pub rust: Work,
    pub ready: Option<Work>,
}

pub fn all() -> Vec<Case> {
    let sides = [(16, 16), (33, 17), (1024, 16), (64, 64), (640, 480), (1024, 1024)];
    let counts = [16, 1024, 4096];
    let kinds = [TRANSLATION, ROTZOOM, AFFINE];
    let header_kinds = [IDENTITY, TRANSLATION, AFFINE];
    let widths = [1, 3, 8, 17, 32];
    let job_sides = [(64, 64), (640, 480), (1024, 1024)];
    let mut cases = Vec::new();
    cases.extend(Scene::ALL.iter().flat_map(|&scene| sides.map(|(width, height)| Search(scene, width, height))));
    cases.extend(Scene::ALL.map(|scene| SearchByHand(scene, 640, 480)));
    cases.extend(kinds.iter().flat_map(|&kind| counts.map(|n| Fit(kind, n))));
    cases.extend(kinds.iter().flat_map(|&kind| counts.map(|n| FitSamples(kind, n))));
    cases.extend(counts.map(Score));
    cases.extend(counts.map(ScoreSamples));
    cases.extend(kinds.iter().flat_map(|&kind| counts.map(|n| QuantizeModel(kind, n))));
    cases.extend(kinds.iter().flat_map(|&kind| counts.map(|n| QuantizeTrimmed(kind, n))));
    cases.extend(kinds.iter().flat_map(|&kind| counts.map(|n| QuantizeTrimmedSamples(kind, n))));
    cases.extend([16, 4096].map(Elect));
    cases.push(ElectSamples(4096));
    cases.extend(kinds.iter().flat_map(|&kind| [16, 4096].map(|n| FitByClass(kind, n))));
    cases.extend(kinds.iter().flat_map(|&kind| [16, 4096].map(|n| QuantizeTrimmedByClass(kind, n))));
    cases.extend([16, 4096].map(ElectByClass));
    cases.extend(kinds.iter().flat_map(|&kind| [16, 4096].map(|n| FitSamplesByClass(kind, n))));
    cases.extend(kinds.iter().flat_map(|&kind| [16, 4096].map(|n| QuantizeTrimmedSamplesByClass(kind, n))));
    cases.extend([16, 4096].map(ElectSamplesByClass));
    cases.extend(counts.map(WriteFrame));
    cases.extend([2, 1].iter().flat_map(|&form| counts.map(|n| ReadFrame(form, n))));
    cases.extend(header_kinds.iter().flat_map(|&kind| Distance::ALL.map(|prior| WriteHeader(kind, prior))));
    cases.extend(header_kinds.iter().flat_map(|&kind| Distance::ALL.map(|prior| ReadHeader(kind, prior))));
    cases.extend(widths.map(PlaceFields));
    cases.extend(header_kinds.iter().flat_map(|&kind| Distance::ALL.map(|prior| PlaceHeader(kind, prior))));
    cases.extend(kinds.iter().flat_map(|&kind| job_sides.map(|(width, height)| WholeJob(kind, width, height))));
    cases.push(ElectingJob(640, 480));
    cases.push(JobByClass(ROTZOOM, 640, 480));
    cases.push(ElectingJobByClass(640, 480));
    cases
}

/// A row of each kind, for a quick look.
pub fn few() -> Vec<Case> {
    let mut cases = Vec::new();
    cases.extend(Scene::ALL.map(|scene| Search(scene, 640, 480)));
    cases.push(Search(Scene::Textured, 16, 16));
    cases.extend(Scene::ALL.map(|scene| SearchByHand(scene, 640, 480)));
    cases.extend([TRANSLATION, ROTZOOM, AFFINE].map(|kind| Fit(kind, 16)));
    cases.extend([Score(16), QuantizeTrimmed(ROTZOOM, 16), Elect(4096)]);
    cases.extend([WriteFrame(4096), ReadFrame(2, 4096), ReadFrame(1, 4096)]);
    cases.extend([WriteHeader(AFFINE, Distance::Near), ReadHeader(AFFINE, Distance::Near)]);
    cases.push(WholeJob(ROTZOOM, 640, 480));
    cases
}

/// How many of so many words or samples aren't film.
fn not_film(n: usize) -> usize {
    inputs::classes(n).iter().filter(|&&class| WITHOUT_FILM.names(class)).count()
}

fn type_name(kind: u8) -> &'static str {
    ["identity", "translation", "rotation-zoom", "affine"][usize::from(kind)]
}

impl fmt::Display for Case {
    fn fmt(&self, f: &mut fmt::Formatter) -> fmt::Result {
        match *self {
            Search(scene, width, height) => write!(f, "search | {} {width}×{height}", scene.name()),
            SearchByHand(scene, width, height) => {
                write!(f, "search / by hand | {} {width}×{height}", scene.name())
            }
            Fit(kind, n) => write!(f, "fit | {}, {n} words", type_name(kind)),
            FitSamples(kind, n) => write!(f, "fit | {}, {n} samples", type_name(kind)),
            Score(n) => write!(f, "score | {n} words"),
            ScoreSamples(n) => write!(f, "score | {n} samples"),
            QuantizeModel(kind, n) => write!(f, "quantize_model | {}, {n} words", type_name(kind)),
            QuantizeTrimmed(kind, n) => write!(f, "quantize_trimmed | {}, {n} words", type_name(kind)),
            QuantizeTrimmedSamples(kind, n) => write!(f, "quantize_trimmed | {}, {n} samples", type_name(kind)),
            Elect(n) => write!(f, "elect | {n} words"),
            ElectSamples(n) => write!(f, "elect | {n} samples"),
            FitByClass(kind, n) => write!(f, "fit_by_class | {}, {} of {n} words", type_name(kind), not_film(n)),
            QuantizeTrimmedByClass(kind, n) => {
                write!(f, "quantize_trimmed_by_class | {}, {} of {n} words", type_name(kind), not_film(n))
            }
            ElectByClass(n) => write!(f, "elect_by_class | {} of {n} words", not_film(n)),
            FitSamplesByClass(kind, n) => {
                write!(f, "fit_by_class | {}, {} of {n} samples", type_name(kind), not_film(n))
            }
            QuantizeTrimmedSamplesByClass(kind, n) => {
                write!(f, "quantize_trimmed_by_class | {}, {} of {n} samples", type_name(kind), not_film(n))
            }
            ElectSamplesByClass(n) => write!(f, "elect_by_class | {} of {n} samples", not_film(n)),
            WriteFrame(n) => write!(f, "write_frame | form 2, {n} samples"),
            ReadFrame(form, n) => write!(f, "read_both | form {form}, {n} samples"),
            WriteHeader(kind, prior) => write!(f, "header write | seven {}, prior {}", type_name(kind), prior.name()),
            ReadHeader(kind, prior) => write!(f, "header read | seven {}, prior {}", type_name(kind), prior.name()),
            PlaceFields(width) => write!(f, "word / one by one | fields of {width}"),
            PlaceHeader(kind, prior) => {
                write!(f, "word / one by one | fields of seven {}, prior {}", type_name(kind), prior.name())
            }
            WholeJob(kind, width, height) => write!(f, "job | {}, textured {width}×{height}", type_name(kind)),
            ElectingJob(width, height) => write!(f, "job | electing, textured {width}×{height}"),
            JobByClass(kind, width, height) => {
                write!(f, "job | {}, without film, textured {width}×{height}", type_name(kind))
            }
            ElectingJobByClass(width, height) => write!(f, "job | electing, without film, textured {width}×{height}"),
        }
    }
}

impl Case {
    /// The largest ratio that is wanted.
    pub fn most(&self) -> Option<f64> {
        match *self {
            Search(scene, _, 480..) => Some(match scene {
                Scene::Noise => NOISE,
                Scene::Textured => TEXTURED,
                Scene::Static => STATIC,
            }),
            Search(..) => Some(SMALL_SEARCH),
            SearchByHand(Scene::Static, ..) => Some(STATIC_BY_HAND),
            SearchByHand(..) => Some(BY_HAND),
            WholeJob(_, 640, _) | ElectingJob(640, _) | JobByClass(_, 640, _) | ElectingJobByClass(640, _) => {
                Some(LARGE_JOB)
            }
            WriteFrame(4096) | ReadFrame(2, 4096) => Some(BLOCKS),
            Score(16) => Some(SMALL_SCORE),
            WholeJob(..) | ElectingJob(..) | JobByClass(..) | ElectingJobByClass(..) => Some(JOB),
            Fit(_, 16) => Some(SMALL_FITS),
            Fit(TRANSLATION, 4096) => Some(MOTION_SUMS),
            Fit(_, 4096) => Some(PRODUCT_SUMS),
            FitSamples(ROTZOOM | AFFINE, 16) | FitSamples(_, 4096) | Score(4096) | ScoreSamples(4096) => Some(SUMS),
            QuantizeTrimmed(_, 16) => Some(SMALL_TRIMS),
            Elect(16) => Some(SMALL_ELECTION),
            QuantizeTrimmed(_, 4096) | Elect(4096) => Some(TRIMMED),
            WriteHeader(IDENTITY, _) | WriteHeader(_, Distance::Near) => Some(HEADER_WRITTEN_NEAR),
            WriteHeader(_, Distance::Far) => Some(HEADER_WRITTEN_FAR),
            ReadHeader(IDENTITY, _) => Some(IDENTITIES_READ),
            ReadHeader(_, Distance::Near) => Some(HEADER_READ_NEAR),
            ReadHeader(_, Distance::Far) => Some(HEADER_READ_FAR),
            _ => None,
        }
    }

    /// A job on how many pictures.
    pub fn jobs(&self) -> Option<usize> {
        match *self {
            WholeJob(_, width, height) | JobByClass(_, width, height) => Some(inputs::pictures(width, height)),
            ElectingJob(width, height) | ElectingJobByClass(width, height) => Some(inputs::pictures(width, height)),
            _ => None,
        }
    }

    /// Both sides, after their answers were compared.
    pub fn sides(&self) -> Sides {
        match *self {
            Search(scene, width, height) => search(scene, width, height),
            SearchByHand(scene, width, height) => search_by_hand(scene, width, height),
            Fit(kind, n) => fit(kind, n),
            FitSamples(kind, n) => fit_samples(kind, n),
            Score(n) => score(n),
            ScoreSamples(n) => score_samples(n),
            QuantizeModel(kind, n) => quantize_model(kind, n),
            QuantizeTrimmed(kind, n) => quantize_trimmed(kind, n),
            QuantizeTrimmedSamples(kind, n) => quantize_trimmed_samples(kind, n),
            Elect(n) => elect(n),
            ElectSamples(n) => elect_samples(n),
            FitByClass(kind, n) => fit_by_class(kind, n),
            QuantizeTrimmedByClass(kind, n) => quantize_trimmed_by_class(kind, n),
            ElectByClass(n) => elect_by_class(n),
            FitSamplesByClass(kind, n) => fit_samples_by_class(kind, n),
            QuantizeTrimmedSamplesByClass(kind, n) => quantize_trimmed_samples_by_class(kind, n),
            ElectSamplesByClass(n) => elect_samples_by_class(n),
            WriteFrame(n) => write_frame(n),
            ReadFrame(form, n) => read_frame(form, n),
            WriteHeader(kind, prior) => write_header(kind, prior),
            ReadHeader(kind, prior) => read_header(kind, prior),
            PlaceFields(width) => place_fields((0..FIELDS).map(|k| (width, 0x9e37_79b1u32.wrapping_mul(k))).collect()),
            PlaceHeader(kind, prior) => place_fields(Header::new(kind, prior).fields()),
            WholeJob(kind, width, height) => whole_job(Job::new(kind, width, height), width, height),
            ElectingJob(width, height) => whole_job(Job::electing(width, height), width, height),
            JobByClass(kind, width, height) => whole_job(Job::new(kind, width, height).without_film(), width, height),
            ElectingJobByClass(width, height) => whole_job(Job::electing(width, height).without_film(), width, height),
        }
    }
}

/// A search into the buffers of a job.
fn searched(
    input: &[u16],
    reference: &[u16],
    width: usize,
    height: usize,
    classes: &[u8],
    lent: &mut Buffers,
) -> Result<Searched, Refusal> {
    let Lent { input_half, ref_half, words, .. } = lent.lend();
    belt::collect_motion_samples(input, reference, width, height, classes, input_half, ref_half, words)
}

/// Pictures of a scene, each with its input and its reference.
struct Pictures {
    pairs: Vec<(Vec<u16>, Vec<u16>)>,
    classes: Vec<u8>,
    width: usize,
    height: usize,
    lent: Buffers,
}

impl Pictures {
    fn new(scene: Scene, width: usize, height: usize, count: usize) -> Self {
        Self {
            pairs: (0..count).map(|picture| scene.pair(width, height, picture)).collect(),
            classes: inputs::classes(oracle::sample_count(width, height)),
            width,
            height,
            lent: Buffers::new(width, height),
        }
    }

    /// Each picture searched; `look` sees the answer and the buffers.
    fn search(&mut self, mut look: impl FnMut(&(Vec<u16>, Vec<u16>), Result<Searched, Refusal>, &mut Buffers)) {
        for pair in &self.pairs {
            let (input, reference) = pair;
            let lent = &mut self.lent;
            let (width, height) = (self.width, self.height);
            let answer = searched(black_box(input), reference, width, height, &self.classes, black_box(&mut *lent));
            look(pair, answer, lent);
        }
    }
}

/// The rows that the search of a square picture adds, and what it leaves.
pub fn searched_once(scene: Scene, side: usize) -> (u32, Buffers) {
    let mut ours = Pictures::new(scene, side, side, 1);
    let mut rows = 0;
    ours.search(|_, answer, _| rows = answer.expect("it is accepted").rows);
    (rows, ours.lent)
}

/// Our search of so many pictures, for the growth of its time.
pub fn searches(scene: Scene, width: usize, height: usize, count: usize) -> Work {
    let mut ours = Pictures::new(scene, width, height, count);
    Box::new(move || ours.search(|_, answer, _| _ = black_box(answer.ok())))
}

fn search(scene: Scene, width: usize, height: usize) -> Sides {
    let count = inputs::pictures(width, height);
    let mut ours = Pictures::new(scene, width, height, count);
    let samples = ours.classes.len();
    ours.search(|(input, reference), answer, lent| {
        assert_eq!(answer.map(|found| found.samples), Ok(samples));
        assert_eq!(lent.words, oracle::sample_words(input, reference, width, height));
        assert_eq!(lent.input_half, oracle::half_plane(input, width, height));
        assert_eq!(lent.ref_half, oracle::half_plane(reference, width, height));
    });

    let pairs = ours.pairs.clone();
    Sides {
        ours: Box::new(move || ours.search(|_, answer, _| _ = black_box(answer.ok()))),
        rust: Box::new(move || {
            for (input, reference) in &pairs {
                black_box(oracle::search(black_box(input), reference, width, height));
            }
        }),
        ready: None,
    }
}

unsafe extern "C" {
    /// `hand/search.c`.
    fn hand_search(
        input: *const u16,
        reference: *const u16,
        width: usize,
        height: usize,
        input_half: *mut u16,
        reference_half: *mut u16,
        words: *mut u32,
    ) -> u32;
}

/// The search by hand, into the buffers of a job; it gives the rows added.
fn by_hand(input: &[u16], reference: &[u16], width: usize, height: usize, lent: &mut Buffers) -> u32 {
    let Lent { input_half, ref_half, words, .. } = lent.lend();
    assert!(input.len() == width * height && reference.len() == width * height && width.max(height) <= 1024);
    assert!(input_half.len() >= (width / 2) * (height / 2) && ref_half.len() >= (width / 2) * (height / 2));
    assert!(words.len() >= (width / 16) * (height / 16));
    // SAFETY: the planes have width times height pels, and each buffer has room for what the search writes.
    unsafe {
        hand_search(
            input.as_ptr(),
            reference.as_ptr(),
            width,
            height,
            input_half.as_mut_ptr(),
            ref_half.as_mut_ptr(),
            words.as_mut_ptr(),
        )
    }
}

fn search_by_hand(scene: Scene, width: usize, height: usize) -> Sides {
    let mut ours = Pictures::new(scene, width, height, inputs::pictures(width, height));
    let mut left = Buffers::new(width, height);
    ours.search(|(input, reference), answer, lent| {
        let rows = by_hand(input, reference, width, height, &mut left);
        assert_eq!(answer.map(|found| found.rows), Ok(rows));
        assert!(lent.words == left.words && lent.input_half == left.input_half && lent.ref_half == left.ref_half);
    });

    let pairs = ours.pairs.clone();
    Sides {
        ours: Box::new(move || ours.search(|_, answer, _| _ = black_box(answer.ok()))),
        rust: Box::new(move || {
            for (input, reference) in &pairs {
                black_box(by_hand(black_box(input), reference, width, height, black_box(&mut left)));
            }
        }),
        ready: None,
    }
}

/// The sides of a call on samples. The Rust makes its samples of the same words, or has them ready made.
fn on_words(
    words: Vec<u32>,
    mut ours: impl FnMut(&[u32]) + 'static,
    rust: impl Fn(&Samples) + Copy + 'static,
) -> Sides {
    let rust_words = words.clone();
    let samples = Samples::of_words(&words);
    Sides {
        ours: Box::new(move || ours(black_box(&words))),
        rust: Box::new(move || rust(&Samples::of_words(black_box(&rust_words)))),
        ready: Some(Box::new(move || rust(black_box(&samples)))),
    }
}

/// Equal by bits, all not-a-numbers being equal.
fn same(ours: f64, rust: f64) -> bool {
    oracle::canonical(ours).to_bits() == oracle::canonical(rust).to_bits()
}

/// The library's fit of type 1, 2 or 3.
fn library_fit(kind: u8, words: &[u32]) -> Result<Fitted, Refusal> {
    match kind {
        TRANSLATION => belt::fit_translation(words),
        ROTZOOM => belt::fit_rotzoom(words),
        AFFINE => belt::fit_affine(words),
        _ => panic!("type {kind} has no fit"),
    }
}

/// Both sides' fits to the same words: the same bits.
fn fits(kind: u8, words: &[u32]) -> (Fitted, [f64; 6]) {
    let ours = library_fit(kind, words).expect("this elimination doesn't refuse");
    let rust = Samples::of_words(words).fit(kind).expect("this elimination doesn't refuse");
    assert!((0..carried(kind)).all(|i| same(ours.numbers[i], rust[i])), "{ours:?} {rust:?}");
    (ours, rust)
}

fn fit(kind: u8, n: usize) -> Sides {
    let words = oracle::blocks::words(n as u32, n);
    fits(kind, &words);
    on_words(
        words,
        move |words| {
            black_box(library_fit(kind, words).ok());
        },
        move |samples| {
            black_box(samples.fit(kind));
        },
    )
}

fn score(n: usize) -> Sides {
    let words = oracle::blocks::words(n as u32, n);
    let ours = belt::mean_sq_residual(&Model(PARAMS), &words).expect("not too many words");
    assert!(same(ours, Samples::of_words(&words).score(&PARAMS)));
    on_words(
        words,
        |words| {
            black_box(belt::mean_sq_residual(black_box(&Model(PARAMS)), words).ok());
        },
        |samples| {
            black_box(samples.score(black_box(&PARAMS)));
        },
    )
}

/// The samples of words, with the library's layout.
fn lent_samples(words: &[u32]) -> Vec<MotionSample> {
    words.iter().map(|&word| MotionSample::of_word(word)).collect()
}

/// Ready-made samples for both sides.
fn on_samples(
    words: &[u32],
    mut ours: impl FnMut(&[MotionSample]) + 'static,
    rust: impl Fn(&Samples) + 'static,
) -> Sides {
    let lent = lent_samples(words);
    let samples = Samples::of_words(words);
    Sides {
        ours: Box::new(move || ours(black_box(&lent))),
        rust: Box::new(move || rust(black_box(&samples))),
        ready: None,
    }
}

fn fit_samples(kind: u8, n: usize) -> Sides {
    let words = oracle::blocks::words(n as u32, n);
    let ours = [belt::fit_translation_samples, belt::fit_rotzoom_samples, belt::fit_affine_samples];
    let ours = ours[usize::from(kind) - 1];
    assert_eq!(ours(&lent_samples(&words)), Ok(fits(kind, &words).0));
    on_samples(
        &words,
        move |samples| {
            black_box(ours(samples).ok());
        },
        move |samples| {
            black_box(samples.fit(kind));
        },
    )
}

fn score_samples(n: usize) -> Sides {
    let words = oracle::blocks::words(n as u32, n);
    let ours = belt::mean_sq_residual_samples(&Model(PARAMS), &lent_samples(&words)).expect("not too many samples");
    assert!(same(ours, Samples::of_words(&words).score(&PARAMS)));
    on_samples(
        &words,
        |samples| {
            black_box(belt::mean_sq_residual_samples(black_box(&Model(PARAMS)), samples).ok());
        },
        |samples| {
            black_box(samples.score(black_box(&PARAMS)));
        },
    )
}

fn quantize_model(kind: u8, n: usize) -> Sides {
    let words = oracle::blocks::words(n as u32, n);
    let (fitted, model) = fits(kind, &words);
    let rust = Samples::of_words(&words).quantize_model(&model, kind, true);
    assert_eq!(belt::quantize_model(&fitted, HIGH_PRECISION, &words), Ok(Model(rust)));
    on_words(
        words,
        move |words| {
            black_box(belt::quantize_model(black_box(&fitted), HIGH_PRECISION, words).ok());
        },
        move |samples| {
            black_box(samples.quantize_model(black_box(&model), kind, true));
        },
    )
}

/// Words of a field that moves as one, with a share of loose ones.
fn loose_words(n: usize) -> Vec<u32> {
    let loose = oracle::blocks::words(n as u32, n).into_iter();
    let even = |word: u32| word & !0x000f_ffff | (220 + (word >> 11 & 7)) << 11 | (230 + (word >> 2 & 7)) << 2;
    loose.enumerate().map(|(i, word)| if i % 16 == 0 { word } else { even(word) }).collect()
}

/// The trimmed fit through the model on the grid, which is where the Rust's own goes on to its tests.
fn quantize_trimmed(kind: u8, n: usize) -> Sides {
    let words = loose_words(n);
    let rust = Samples::of_words(&words).trimmed(kind, true).expect("neither fit is refused");
    let ours = belt::quantize_trimmed(kind, HIGH_PRECISION, &words).expect("neither fit is refused");
    assert_eq!((ours.model, ours.used), (Model(rust.params), rust.used));
    on_words(
        words,
        move |words| {
            black_box(belt::quantize_trimmed(kind, HIGH_PRECISION, words).ok());
        },
        move |samples| {
            black_box(samples.trimmed(kind, true));
        },
    )
}

fn quantize_trimmed_samples(kind: u8, n: usize) -> Sides {
    let words = loose_words(n);
    let ours = belt::quantize_trimmed_samples(kind, HIGH_PRECISION, &lent_samples(&words));
    assert_eq!(ours, belt::quantize_trimmed(kind, HIGH_PRECISION, &words));
    on_samples(
        &words,
        move |samples| {
            black_box(belt::quantize_trimmed_samples(kind, HIGH_PRECISION, samples).ok());
        },
        move |samples| {
            black_box(samples.trimmed(kind, true));
        },
    )
}

/// Words of a field that turns about its middle, each by up to three eighths beside it and one in sixteen by two pels.
/// Places are filled row by row of a square.
fn turning_words(n: usize) -> Vec<u32> {
    let mut lcg = oracle::list::Lcg(n as u32);
    let across = (n as f64).sqrt().ceil() as i32;
    let word = |place: i32| {
        let (row, column) = (place / across, place % across);
        let off = if place % 16 == 5 { 16 } else { 0 };
        let mut motion = |turned: i32| {
            let even = 223 + 64 * turned / across + off;
            (even + i32::from(lcg.below(7)) - 3) as u32
        };
        let (v, u) = (motion(column - across / 2), motion(across / 2 - row));
        (row as u32) << 26 | (column as u32) << 20 | v << 11 | u << 2
    };
    (0..n as i32).map(word).collect()
}

/// All three types' fits after trimming and their tests; the rotation-zoom is elected.
fn elect(n: usize) -> Sides {
    let words = turning_words(n);
    let rust = Samples::of_words(&words).elect(true);
    let ours = belt::elect(HIGH_PRECISION, &words).expect("the election isn't refused");
    assert_eq!((ours.gm_type, ours.model), (rust.kind, StoredModel(rust.params)));
    assert!(ours.gm_type == ROTZOOM && same(ours.score, rust.score), "{ours:?}");
    on_words(
        words,
        |words| {
            black_box(belt::elect(HIGH_PRECISION, words).ok());
        },
        |samples| {
            black_box(samples.estimate(true));
        },
    )
}

fn elect_samples(n: usize) -> Sides {
    let words = turning_words(n);
    let ours = belt::elect_samples(HIGH_PRECISION, &lent_samples(&words));
    assert_eq!(ours, belt::elect(HIGH_PRECISION, &words));
    on_samples(
        &words,
        |samples| {
            black_box(belt::elect_samples(HIGH_PRECISION, samples).ok());
        },
        |samples| {
            black_box(samples.estimate(true));
        },
    )
}

/// The sides of a call by class: ours has the words and their classes, and the Rust makes its samples of the words that
/// aren't film.
fn on_classed(words: Vec<u32>, ours: impl Fn(&[u32], &[u8]) + 'static, rust: impl Fn(&Samples) + 'static) -> Sides {
    let classes = inputs::classes(words.len());
    let (rust_words, rust_classes) = (words.clone(), classes.clone());
    Sides {
        ours: Box::new(move || ours(black_box(&words), black_box(&classes))),
        rust: Box::new(move || rust(&without_film(black_box(&rust_words), black_box(&rust_classes)))),
        ready: None,
    }
}

fn without_film(words: &[u32], classes: &[u8]) -> Samples {
    Samples::named(WITHOUT_FILM.bits(), words, classes)
}

fn fit_by_class(kind: u8, n: usize) -> Sides {
    let words = oracle::blocks::words(n as u32, n);
    let classes = inputs::classes(n);
    let ours = belt::fit_by_class(WITHOUT_FILM, kind, &words, &classes).expect("this elimination doesn't refuse");
    let rust = without_film(&words, &classes).fit(kind).expect("this elimination doesn't refuse");
    assert!((0..carried(kind)).all(|i| same(ours.numbers[i], rust[i])), "{ours:?} {rust:?}");
    on_classed(
        words,
        move |words, classes| {
            black_box(belt::fit_by_class(WITHOUT_FILM, kind, words, classes).ok());
        },
        move |samples| {
            black_box(samples.fit(kind));
        },
    )
}

fn quantize_trimmed_by_class(kind: u8, n: usize) -> Sides {
    let words = loose_words(n);
    let classes = inputs::classes(n);
    let ours = belt::quantize_trimmed_by_class(WITHOUT_FILM, kind, HIGH_PRECISION, &words, &classes);
    let ours = ours.expect("neither fit is refused");
    let rust = without_film(&words, &classes).trimmed(kind, true).expect("neither fit is refused");
    assert_eq!((ours.model, ours.used), (Model(rust.params), rust.used));
    on_classed(
        words,
        move |words, classes| {
            black_box(belt::quantize_trimmed_by_class(WITHOUT_FILM, kind, HIGH_PRECISION, words, classes).ok());
        },
        move |samples| {
            black_box(samples.trimmed(kind, true));
        },
    )
}

fn elect_by_class(n: usize) -> Sides {
    let words = turning_words(n);
    let classes = inputs::classes(n);
    let ours = belt::elect_by_class(WITHOUT_FILM, HIGH_PRECISION, &words, &classes).expect("it isn't refused");
    let rust = without_film(&words, &classes).elect(true);
    assert_eq!((ours.gm_type, ours.model), (rust.kind, StoredModel(rust.params)));
    assert!(ours.gm_type != IDENTITY && same(ours.score, rust.score), "{ours:?}");
    on_classed(
        words,
        |words, classes| {
            black_box(belt::elect_by_class(WITHOUT_FILM, HIGH_PRECISION, words, classes).ok());
        },
        |samples| {
            black_box(samples.estimate(true));
        },
    )
}

/// The sides of a call by class over samples that are ready made: the Rust picks those that aren't film.
fn on_classed_samples(
    words: &[u32],
    ours: impl Fn(&[MotionSample], &[u8]) + 'static,
    rust: impl Fn(&Samples) + 'static,
) -> Sides {
    let classes = inputs::classes(words.len());
    let (lent, samples, rust_classes) = (lent_samples(words), Samples::of_words(words), classes.clone());
    Sides {
        ours: Box::new(move || ours(black_box(&lent), black_box(&classes))),
        rust: Box::new(move || rust(&black_box(&samples).of_classes(WITHOUT_FILM.bits(), black_box(&rust_classes)))),
        ready: None,
    }
}

fn fit_samples_by_class(kind: u8, n: usize) -> Sides {
    let words = oracle::blocks::words(n as u32, n);
    let classes = inputs::classes(n);
    let ours = belt::fit_samples_by_class(WITHOUT_FILM, kind, &lent_samples(&words), &classes);
    let ours = ours.expect("this elimination doesn't refuse");
    let rust = without_film(&words, &classes).fit(kind).expect("this elimination doesn't refuse");
    assert!((0..carried(kind)).all(|i| same(ours.numbers[i], rust[i])), "{ours:?} {rust:?}");
    on_classed_samples(
        &words,
        move |samples, classes| {
            black_box(belt::fit_samples_by_class(WITHOUT_FILM, kind, samples, classes).ok());
        },
        move |samples| {
            black_box(samples.fit(kind));
        },
    )
}

fn quantize_trimmed_samples_by_class(kind: u8, n: usize) -> Sides {
    let words = loose_words(n);
    let classes = inputs::classes(n);
    let call = belt::quantize_trimmed_samples_by_class;
    let ours = call(WITHOUT_FILM, kind, HIGH_PRECISION, &lent_samples(&words), &classes);
    let ours = ours.expect("neither fit is refused");
    let rust = without_film(&words, &classes).trimmed(kind, true).expect("neither fit is refused");
    assert_eq!((ours.model, ours.used), (Model(rust.params), rust.used));
    on_classed_samples(
        &words,
        move |samples, classes| {
            black_box(call(WITHOUT_FILM, kind, HIGH_PRECISION, samples, classes).ok());
        },
        move |samples| {
            black_box(samples.trimmed(kind, true));
        },
    )
}

fn elect_samples_by_class(n: usize) -> Sides {
    let words = turning_words(n);
    let classes = inputs::classes(n);
    let ours = belt::elect_samples_by_class(WITHOUT_FILM, HIGH_PRECISION, &lent_samples(&words), &classes);
    let ours = ours.expect("it isn't refused");
    let rust = without_film(&words, &classes).elect(true);
    assert_eq!((ours.gm_type, ours.model), (rust.kind, StoredModel(rust.params)));
    assert!(ours.gm_type != IDENTITY && same(ours.score, rust.score), "{ours:?}");
    on_classed_samples(
        &words,
        |samples, classes| {
            black_box(belt::elect_samples_by_class(WITHOUT_FILM, HIGH_PRECISION, samples, classes).ok());
        },
        |samples| {
            black_box(samples.estimate(true));
        },
    )
}

/// Words with class bits zero, and a class for each.
fn samples(n: usize) -> (Vec<u32>, Vec<u8>) {
    (oracle::blocks::words(n as u32, n).iter().map(|word| word & !3).collect(), inputs::classes(n))
}

fn write_frame(n: usize) -> Sides {
    let (words, classes) = samples(n);
    let count = frames::block_count(n);
    let mut ours = vec![0; frames::BLOCK * count];
    let mut rust = ours.clone();
    assert_eq!(belt::write_frame(FRAME, &words, &classes, &mut ours), Ok(count));
    assert_eq!(frames::write(FRAME, &words, &classes, &mut rust), Ok(count));
    assert!(ours == rust);

    let (rust_words, rust_classes) = (words.clone(), classes.clone());
    Sides {
        ours: Box::new(move || {
            black_box(belt::write_frame(FRAME, black_box(&words), &classes, black_box(&mut ours)).ok());
        }),
        rust: Box::new(move || {
            black_box(frames::write(FRAME, black_box(&rust_words), &rust_classes, black_box(&mut rust)).ok());
        }),
        ready: None,
    }
}

/// A frame of a form; form 1 comes from form 2 by conversion, and so has no film.
fn read_frame(form: u8, n: usize) -> Sides {
    let (words, mut classes) = samples(n);
    if form == 1 {
        classes.fill(belt::METAL);
    }
    let mut blocks = vec![0; frames::BLOCK * frames::block_count(n)];
    frames::write(FRAME, &words, &classes, &mut blocks).expect("samples that can be stored");
    if form == 1 {
        let stored = blocks.clone();
        let count = belt::to_form1(&stored, &mut blocks).expect("a frame without film");
        blocks.truncate(frames::BLOCK * count);
    }
    let (mut ours, mut ours_classes) = (vec![0; n], vec![0; n]);
    let (mut rust, mut rust_classes) = (vec![0; n], vec![0; n]);
    assert_eq!(belt::read_both(&blocks, &mut ours, &mut ours_classes), Ok(Frame { number: FRAME, samples: n }));
    assert_eq!(frames::read(&blocks, &mut rust, &mut rust_classes), Ok((FRAME, n)));
    assert!(ours == words && rust == words && ours_classes == classes && rust_classes == classes);

    let rust_blocks = blocks.clone();
    Sides {
        ours: Box::new(move || {
            black_box(belt::read_both(black_box(&blocks), black_box(&mut ours), &mut ours_classes).ok());
        }),
        rust: Box::new(move || {
            black_box(frames::read(black_box(&rust_blocks), black_box(&mut rust), &mut rust_classes).ok());
        }),
        ready: None,
    }
}

fn write_header(kind: u8, distance: Distance) -> Sides {
    let header = Header::new(kind, distance);
    let mut room = [0; belt::HEADER_BYTES];
    let (bytes, bits) = header.rust_write();
    assert_eq!(header.write(&mut room), Ok(bits));
    assert_eq!(room[..bytes.len()], bytes);

    Sides {
        ours: Box::new(move || {
            black_box(black_box(&header).write(black_box(&mut room)).ok());
        }),
        rust: Box::new(move || {
            black_box(black_box(&header).rust_write());
        }),
        ready: None,
    }
}

fn read_header(kind: u8, distance: Distance) -> Sides {
    let header = Header::new(kind, distance);
    let (bytes, bits) = header.rust_write();
    let ours = header.read(&bytes).expect("a whole header");
    assert_eq!(header.rust_read(&bytes), Some((header.types, header.models, bits)));
    assert_eq!((ours.types, ours.models.map(|model| model.0), ours.bits), (header.types, header.models, bits));

    let rust_bytes = bytes.clone();
    Sides {
        ours: Box::new(move || {
            black_box(black_box(&header).read(black_box(&bytes)).ok());
        }),
        rust: Box::new(move || {
            black_box(black_box(&header).rust_read(black_box(&rust_bytes)));
        }),
        ready: None,
    }
}

/// How many fields of one width are placed in a call.
const FIELDS: u32 = 24;
/// The bit that the first begins at.
const FIRST: usize = 3;

fn place_fields(fields: Vec<Field>) -> Sides {
    let (mut ours, mut one_by_one) = ([0xff; belt::HEADER_BYTES], [0xff; belt::HEADER_BYTES]);
    let end = place(Way::Word, &fields, &mut ours, FIRST);
    assert_eq!(place(Way::OneByOne, &fields, &mut one_by_one, FIRST), end);
    assert_eq!(ours, one_by_one);

    let old_fields = fields.clone();
    Sides {
        ours: Box::new(move || {
            black_box(place(Way::Word, black_box(&fields), black_box(&mut ours), FIRST));
        }),
        rust: Box::new(move || {
            black_box(place(Way::OneByOne, black_box(&old_fields), black_box(&mut one_by_one), FIRST));
        }),
        ready: None,
    }
}

fn whole_job(job: Job, width: usize, height: usize) -> Sides {
    let mut lent = Buffers::new(width, height);
    let mut left = lent.clone();
    let jobs: Vec<Job> = (0..inputs::pictures(width, height)).map(|picture| job.clone().on(picture)).collect();
    for job in &jobs {
        let ours = job.run(&mut lent).expect("a job that isn't refused");
        let rust = job.rust_run(&mut left).expect("a job that isn't refused");
        job.rust_halves(&mut left);
        let parts = (ours.types, ours.models, ours.score, ours.bits, ours.samples);
        assert!(parts == rust && same(ours.score, rust.2), "{ours:?} {rust:?}");
        assert!(lent == left, "the buffers differ");
    }

    let rust_jobs = jobs.clone();
    Sides {
        ours: Box::new(move || {
            for job in &jobs {
                black_box(black_box(job).run(black_box(&mut lent)).ok());
            }
        }),
        rust: Box::new(move || {
            for job in &rust_jobs {
                black_box(black_box(job).rust_run(black_box(&mut left)));
            }
        }),
        ready: None,
    }
}
