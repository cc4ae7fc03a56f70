//! The kinds of input, and how each is compared. The library's answer stands first in every comparison.

use crate::inputs::{self, Scene, float, number, prior, sides, stored_model};
use crate::random::Random;
use belt::{
    Buffers, ClassSet, Elected, Fitted, Frame, Kind as FrameKind, Lent, Model, MotionSample, Refusal, Report, Run,
    RunReader, Settings, StoredModel, Task, Trimmed, TrimmedModel, WordTask,
};
use oracle::blocks::{self, BLOCK, Form, ONE, TWO};
use oracle::run::NOT_HELD;
use oracle::{Models, SINGULAR, TOO_FEW, practice, run};
use std::fmt::{Debug, Write};

/// An input that is being made, in words for the one that shows a difference.
pub struct Case {
    pub random: Random,
    pub input: String,
    /// Whether the library accepted it.
    pub accepted: bool,
}

impl Case {
    fn note(&mut self, name: &str, value: impl Debug) {
        writeln!(self.input, "{name}: {value:?}").expect("a string takes text");
    }
}

pub struct Kind {
    pub name: &'static str,
    pub share: usize,
    pub compare: fn(&mut Case) -> Result<(), String>,
}

pub const KINDS: [Kind; 44] = [
    Kind { name: "search", share: 4, compare: search },
    Kind { name: "bands", share: 4, compare: bands },
    Kind { name: "bands, by docs/RULES.md", share: 4, compare: band },
    Kind { name: "fit translation", share: 4, compare: |case| fit(case, 1) },
    Kind { name: "fit rotation-zoom", share: 4, compare: |case| fit(case, 2) },
    Kind { name: "fit affine", share: 4, compare: |case| fit(case, 3) },
    Kind { name: "quantized model", share: 6, compare: quantized_model },
    Kind { name: "trimmed fit", share: 8, compare: trimmed_fit },
    Kind { name: "trimmed model", share: 8, compare: trimmed_model },
    Kind { name: "election", share: 8, compare: election },
    Kind { name: "score", share: 4, compare: score },
    Kind { name: "fit by class", share: 8, compare: fit_by_class },
    Kind { name: "quantized model by class", share: 4, compare: quantized_by_class },
    Kind { name: "score by class", share: 4, compare: score_by_class },
    Kind { name: "trimmed fit by class", share: 6, compare: trimmed_fit_by_class },
    Kind { name: "trimmed model by class", share: 6, compare: trimmed_model_by_class },
    Kind { name: "election by class", share: 8, compare: election_by_class },
    Kind { name: "samples, translation", share: 4, compare: |case| fit_samples(case, 1) },
    Kind { name: "samples, rotation-zoom", share: 6, compare: |case| fit_samples(case, 2) },
    Kind { name: "samples, affine", share: 6, compare: |case| fit_samples(case, 3) },
    Kind { name: "samples, quantized model", share: 6, compare: quantized_samples },
    Kind { name: "samples, score", share: 4, compare: score_samples },
    Kind { name: "samples, trimmed fit", share: 8, compare: trimmed_fit_samples },
    Kind { name: "samples, trimmed model", share: 8, compare: trimmed_model_samples },
    Kind { name: "samples, election", share: 8, compare: election_samples },
    Kind { name: "samples, the six calls by class", share: 10, compare: samples_by_class },
    Kind { name: "quantize_global_param", share: 8, compare: grid },
    Kind { name: "header written", share: 8, compare: header_written },
    Kind { name: "header read", share: 6, compare: header_read },
    Kind { name: "header read, damaged", share: 8, compare: header_damaged },
    Kind { name: "key frame", share: 4, compare: key_frame },
    Kind { name: "price list", share: 1, compare: price_list },
    Kind { name: "price of a frame", share: 4, compare: frame_price },
    Kind { name: "job", share: 6, compare: |case| job(case, 0, 0, None) },
    Kind { name: "job that trims", share: 6, compare: |case| job(case, 1, 0, None) },
    Kind { name: "job that elects", share: 6, compare: electing_job },
    Kind { name: "job in a run", share: 6, compare: job_in_a_run },
    Kind { name: "job of words", share: 10, compare: job_of_words },
    Kind { name: "run of frames", share: 8, compare: run_of_frames },
    Kind { name: "blocks of form 2, by docs/RULES.md", share: 4, compare: stored_frame },
    Kind { name: "blocks of form 1, by docs/RULES.md", share: 4, compare: old_frame },
    Kind { name: "shear, by clause 7.11.3.6", share: 6, compare: shear },
    Kind { name: "practice belt, by docs/RULES.md", share: 4, compare: practice },
    Kind { name: "roots, by the processor's", share: 4, compare: roots },
];

/// The sides of practice belts that are likely to differ.
const SIDES: [usize; 9] = [0, 1, 2, 24, 25, 64, 1023, 1024, 1025];

fn same<T: PartialEq + Debug>(what: &str, library: T, rust: T) -> Result<(), String> {
    if library == rust {
        return Ok(());
    }
    Err(format!("{what}, of the library: {library:?}\n{what}, of the Rust: {rust:?}"))
}

/// Two lists, by the first place where they differ.
fn same_list<T: PartialEq + Debug>(what: &str, library: &[T], rust: &[T]) -> Result<(), String> {
    same(&format!("length of {what}"), library.len(), rust.len())?;
    match library.iter().zip(rust).position(|(ours, theirs)| ours != theirs) {
        None => Ok(()),
        Some(place) => same(&format!("{what} at {place}"), &library[place], &rust[place]),
    }
}

/// The bits of a number, all not-a-numbers being equal. Chosen among bits: a compiler may take one not-a-number for
/// another.
fn bits(value: f64) -> u64 {
    if value.is_nan() { 0x7FF8_0000_0000_0000 } else { value.to_bits() }
}

fn samples(words: &[u32]) -> Vec<[f64; 4]> {
    words.iter().map(|&word| oracle::sample_of(word)).collect()
}

/// The number of the row, where a call refused.
fn row<T>(answer: Result<T, Refusal>) -> Result<T, u32> {
    answer.map_err(Refusal::number)
}

/// The rows that the Rust's own refusals stand for.
const TOO_SHORT: u32 = 3;
const ENDS_FIRST: u32 = 9;
/// Those that only the rules have.
const TOO_LARGE: u32 = 1;
const WRONG_LENGTH: u32 = 2;
const NO_SUCH_CODE: u32 = 4;
const NO_CLASS: u32 = 19;
const NO_SUCH_SLOT: u32 = 5;
const OFF_GRID: u32 = 7;
const START_OVER: u32 = 14;
const CLOSED: u32 = 17;

/// A job's buffers full of a pattern: just long enough, or longer.
fn buffers(random: &mut Random, width: usize, height: usize) -> Buffers {
    let needed = Buffers::new(width, height);
    let mut behind = || if random.one_in(2) { 0 } else { random.below(40) };
    Buffers {
        input_half: vec![0xA55A; needed.input_half.len() + behind()],
        ref_half: vec![0x5AA5; needed.ref_half.len() + behind()],
        words: vec![0xA5A5_5A5A; needed.words.len() + behind()],
        blocks: vec![0xA5; needed.blocks.len() + behind()],
        header: vec![0x5A; needed.header.len() + behind()],
    }
}

/// A frame pair with a class for each sample.
struct Pair {
    width: usize,
    height: usize,
    input: Vec<u16>,
    reference: Vec<u16>,
    classes: Vec<u8>,
}

fn pair(case: &mut Case) -> Pair {
    let (width, height) = sides(&mut case.random);
    let scene = Scene::random(&mut case.random);
    let (input, reference) = scene.planes(width, height);
    let classes = inputs::classes(&mut case.random, oracle::sample_count(width, height));
    case.note("sides", (width, height));
    case.note("scene", &scene);
    if width * height <= 1024 {
        case.note("input", &input);
        case.note("reference", &reference);
    }
    case.note("classes", &classes);
    Pair { width, height, input, reference, classes }
}

/// What the search of a pair leaves in the buffers.
fn searched(pair: &Pair, left: &mut Buffers) -> Vec<u32> {
    let Pair { width, height, input, reference, .. } = pair;
    let words = oracle::sample_words(input, reference, *width, *height);
    if !words.is_empty() {
        let halves = [input, reference].map(|plane| oracle::half_plane(plane, *width, *height));
        left.input_half[..halves[0].len()].copy_from_slice(&halves[0]);
        left.ref_half[..halves[1].len()].copy_from_slice(&halves[1]);
        left.words[..words.len()].copy_from_slice(&words);
    }
    words
}

fn search(case: &mut Case) -> Result<(), String> {
    let pair = pair(case);
    let mut ours = buffers(&mut case.random, pair.width, pair.height);
    let mut theirs = ours.clone();
    let Lent { input_half, ref_half, words, .. } = ours.lend();
    let (width, height) = (pair.width, pair.height);
    let found = belt::collect_motion_samples(
        &pair.input,
        &pair.reference,
        width,
        height,
        &pair.classes,
        input_half,
        ref_half,
        words,
    );
    let words = searched(&pair, &mut theirs);
    let rows = oracle::rows::search(&pair.input, &pair.reference, width, height).0;
    same("samples and rows added", row(found.map(|found| (found.samples, found.rows))), Ok((words.len(), rows)))?;
    same_list("half plane of the input", &ours.input_half, &theirs.input_half)?;
    same_list("half plane of the reference", &ours.ref_half, &theirs.ref_half)?;
    same_list("words", &ours.words, &theirs.words)
}

/// A frame in bands cut at random, over half planes by the library, against the Rust's whole search.
fn bands(case: &mut Case) -> Result<(), String> {
    let pair = pair(case);
    let (width, height, random) = (pair.width, pair.height, &mut case.random);
    let (columns, last) = (width / 16, height / 16);
    let mut halves = [&pair.input, &pair.reference].map(|plane| (plane, Vec::new()));
    for (plane, half) in &mut halves {
        let values = (width / 2) * (height / 2);
        *half = vec![0x3C3C; values + random.below(5)];
        let wanted = [oracle::half_plane(plane, width, height), half[values..].to_vec()].concat();
        same("half plane", row(belt::half_plane(plane, width, height, half)), Ok(()))?;
        same_list("half plane", half, &wanted)?;
        half.truncate(values);
    }
    let mut words = vec![0xA5A5_5A5A; columns * last + random.below(9)];
    let mut theirs = words.clone();
    let (mut first, mut rows) = (0, 0);
    let mut cuts = vec![0];
    while first < last || random.one_in(3) {
        let end = (first + random.below(5)).min(last);
        cuts.push(end);
        // just the room that is needed, or all that is left
        let all = words.len() - first * columns;
        let room = if random.one_in(2) { all } else { (end - first) * columns };
        let own = &mut words[first * columns..][..room];
        let [input_half, ref_half] = [&halves[0].1, &halves[1].1];
        let found =
            belt::search_band(&pair.input, &pair.reference, width, height, input_half, ref_half, first..end, own);
        let found = row(found.map(|found| (found.samples, found.rows)));
        same("samples of a band", found.map(|found| found.0), Ok((end - first) * columns))?;
        rows += found.map_or(0, |found| found.1);
        first = end;
    }
    case.note("cuts", cuts);
    let found = oracle::sample_words(&pair.input, &pair.reference, width, height);
    theirs[..found.len()].copy_from_slice(&found);
    same("rows added", rows, oracle::rows::search(&pair.input, &pair.reference, width, height).0)?;
    same_list("words", &words, &theirs)
}

/// One band over half planes of any values, or refused, against a plain writing of the rules.
fn band(case: &mut Case) -> Result<(), String> {
    let mut pair = pair(case);
    let random = &mut case.random;
    let values = (pair.width / 2) * (pair.height / 2);
    let garbage = random.below(4);
    let (kept, set) = (random.pick(&[0xffff, 0x1fff, 0xff, 1, 0]), random.pick(&[0, 0, 0x2000, 0x7fff]));
    let mut halves = [&pair.input, &pair.reference].map(|plane| match garbage {
        0 => oracle::half_plane(plane, pair.width, pair.height),
        1 => plane[..values].to_vec(),
        _ => (0..values).map(|_| random.bits() as u16 & kept | set).collect(),
    });
    let last = pair.height / 16;
    let (mut first, mut end) = (random.below(last + 1), random.below(last + 1));
    if first > end && !random.one_in(4) {
        (first, end) = (end, first);
    }
    let mut short = 0;
    for _ in 0..[0, 0, 1, 2][random.below(4)] {
        match random.below(9) {
            0 => pair.width = random.pick(&[1025, 2048, usize::MAX]),
            1 => pair.height = random.pick(&[1025, 2048, usize::MAX]),
            2 => pair.input.push(1),
            3 => pair.reference.truncate(pair.reference.len() / 2),
            4 => halves[random.below(2)].push(1),
            5 => halves[random.below(2)].truncate(values / 2),
            6 => end = random.pick(&[last + 1, usize::MAX]),
            7 => first = random.pick(&[end.wrapping_add(1), usize::MAX]),
            _ => short = 1 + random.below(3),
        }
    }
    let needed = if first <= end && end <= last { (end - first) * (pair.width.min(1024) / 16) } else { 0 };
    let room = if short > 0 { needed.saturating_sub(short) } else { needed + random.below(4) };
    case.note("rows, room", (first, end, room));
    if values <= 256 {
        case.note("half planes", &halves);
    }
    let Pair { width, height, input, reference, .. } = &pair;
    let (width, height) = (*width, *height);
    let mut words = vec![0xA5A5_5A5A; room];
    let mut theirs = words.clone();
    let found = row(belt::search_band(input, reference, width, height, &halves[0], &halves[1], first..end, &mut words));
    case.accepted = found.is_ok();
    let lengths = |pels: usize, half: usize| {
        input.len() != pels || reference.len() != pels || halves.iter().any(|values| values.len() != half)
    };
    let wanted = match () {
        () if width > inputs::MOST_SIDE || height > inputs::MOST_SIDE => Err(TOO_LARGE),
        () if lengths(width * height, (width / 2) * (height / 2)) => Err(WRONG_LENGTH),
        () if first > end || end > height / 16 => Err(NO_SUCH_SLOT),
        () if room < (end - first) * (width / 16) => Err(TOO_SHORT),
        () => {
            let halves = [&halves[0][..], &halves[1]];
            let scene = oracle::rows::Scene { input, reference, width, height, halves };
            let (rows, motions) = oracle::rows::band(scene, first..end);
            for (place, &(v, u)) in motions.iter().enumerate() {
                let (row, column) = (first + place / (width / 16), place % (width / 16));
                theirs[place] = (row << 26 | column << 20) as u32 | ((v + 223) << 11 | (u + 223) << 2) as u32;
            }
            Ok((motions.len(), rows))
        }
    };
    same("samples and rows added", found.map(|found| (found.samples, found.rows)), wanted)?;
    same_list("words", &words, &theirs)
}

fn library_fit(gm_type: u8, words: &[u32]) -> Result<Fitted, Refusal> {
    match gm_type {
        1 => belt::fit_translation(words),
        2 => belt::fit_rotzoom(words),
        _ => belt::fit_affine(words),
    }
}

/// The bits of the numbers that a model of a type carries, zeros after them.
fn carried(kind: u8, numbers: [f64; 6]) -> [u64; 6] {
    let count = 2 * usize::from(kind);
    std::array::from_fn(|i| if i < count { bits(numbers[i]) } else { 0 })
}

fn fit(case: &mut Case, kind: u8) -> Result<(), String> {
    let words = inputs::words(&mut case.random);
    case.note("words", &words);
    let ours = row(library_fit(kind, &words)).map(|fitted| (fitted.gm_type, fitted.numbers.map(bits)));
    case.accepted = ours.is_ok();
    let theirs = oracle::fit(kind, &samples(&words)).map(|numbers| (kind, carried(kind, numbers)));
    same("bits of the numbers", ours, theirs.ok_or(SINGULAR))
}

fn trimmed_fit(case: &mut Case) -> Result<(), String> {
    let words = inputs::loose_words(&mut case.random);
    let kind = 1 + case.random.below(3) as u8;
    case.note("type", kind);
    case.note("words", &words);
    let ours = row(belt::fit_trimmed(kind, &words));
    same_trimmed(case, ours, kind, oracle::trimmed_or_row(kind, false, &samples(&words)))
}

/// A fit after trimming, by bits, and how many samples it used.
fn same_trimmed(
    case: &mut Case,
    ours: Result<Trimmed, u32>,
    kind: u8,
    theirs: Result<oracle::Trimmed, u32>,
) -> Result<(), String> {
    case.accepted = ours.is_ok();
    let ours = ours.map(|trimmed| (trimmed.fitted.gm_type, trimmed.fitted.numbers.map(bits), trimmed.used));
    let theirs = theirs.map(|trimmed| (kind, carried(kind, trimmed.model), trimmed.used));
    same("bits of the numbers, samples used", ours, theirs)
}

/// The same on the grid.
fn same_trimmed_model(
    case: &mut Case,
    ours: Result<TrimmedModel, u32>,
    theirs: Result<oracle::Trimmed, u32>,
) -> Result<(), String> {
    case.accepted = ours.is_ok();
    let ours = ours.map(|trimmed| (trimmed.model, trimmed.used));
    let theirs = theirs.map(|trimmed| (Model(trimmed.params), trimmed.used));
    same("model, samples used", ours, theirs)
}

fn trimmed_model(case: &mut Case) -> Result<(), String> {
    let words = inputs::loose_words(&mut case.random);
    let (kind, flag) = (1 + case.random.below(3) as u8, case.random.below(2) as u8);
    case.note("type, flag", (kind, flag));
    case.note("words", &words);
    let ours = row(belt::quantize_trimmed(kind, flag, &words));
    same_trimmed_model(case, ours, oracle::trimmed_or_row(kind, flag == 1, &samples(&words)))
}

fn election(case: &mut Case) -> Result<(), String> {
    let words = inputs::words_to_elect(&mut case.random);
    let flag = case.random.below(2) as u8;
    case.note("flag", flag);
    case.note("words", &words);
    let ours = row(belt::elect(flag, &words));
    same("type, model, bits of the score", ours.map(elected), rust_elected(flag, &samples(&words)))
}

fn election_samples(case: &mut Case) -> Result<(), String> {
    let samples = inputs::samples_to_elect(&mut case.random);
    let flag = case.random.below(2) as u8;
    case.note("flag", flag);
    case.note("samples", &samples);
    let ours = row(belt::elect_samples(flag, &lent(&samples)));
    case.accepted = ours.is_ok();
    same("type, model, bits of the score", ours.map(elected), rust_elected(flag, &samples))
}

/// An election's type, model as stored and score.
fn elected(answer: Elected) -> (u8, StoredModel, u64) {
    (answer.gm_type, answer.model, bits(answer.score))
}

fn rust_elected(flag: u8, samples: &[[f64; 4]]) -> Result<(u8, StoredModel, u64), u32> {
    let answer = oracle::elect_or_row(flag == 1, samples)?;
    Ok((answer.kind, StoredModel(answer.params), bits(answer.score)))
}

/// Words, a class for each and a set, some of them refused.
struct Classed {
    set: u8,
    words: Vec<u32>,
    classes: Vec<u8>,
}

/// The words with classes of their own and any class bits; some words that the set doesn't name become any others.
fn classed(case: &mut Case, mut words: Vec<u32>) -> Classed {
    let random = &mut case.random;
    let set = inputs::any_class_set(random);
    let mut classes = inputs::classes(random, words.len());
    for (word, &class) in words.iter_mut().zip(&classes) {
        if !named(set, class) && random.one_in(2) {
            *word = random.bits() as u32;
        }
        *word |= random.below(4) as u32;
    }
    spoil(random, &mut words, &mut classes, inputs::STILL);
    case.note("set", set);
    case.note("classes", &classes);
    case.note("words", &words);
    Classed { set, words, classes }
}

/// At times the list becomes too long, a class one that there isn't, or the classes too many or too few.
fn spoil<T: Clone>(random: &mut Random, list: &mut Vec<T>, classes: &mut Vec<u8>, more: T) {
    if random.one_in(60) {
        list.resize(inputs::MOST_SAMPLES + 1, more);
        classes.resize(list.len(), 0);
    }
    if random.one_in(30) && !classes.is_empty() {
        let place = random.below(classes.len());
        classes[place] = inputs::LAST_CLASS + 1 + random.below(251) as u8;
    }
    if random.one_in(30) {
        classes.resize(random.below(list.len() + 3), 0);
    }
}

/// Whether a set names one of the five classes.
fn named(set: u8, class: u8) -> bool {
    class <= inputs::LAST_CLASS && set >> class & 1 == 1
}

/// The samples of the words whose classes a set names, in their order.
fn named_samples(set: u8, words: &[u32], classes: &[u8]) -> Vec<[f64; 4]> {
    let pairs = words.iter().zip(classes).filter(|&(_, &class)| named(set, class));
    pairs.map(|(&word, _)| oracle::sample_of(word)).collect()
}

/// The row of the rules that a set, so many samples and their classes have, where the call's own codes are right or not.
fn row_by_class(set: u8, samples: usize, classes: &[u8], codes_are_right: bool) -> Result<(), u32> {
    if samples > inputs::MOST_SAMPLES {
        return Err(TOO_LARGE);
    }
    if samples != classes.len() {
        return Err(WRONG_LENGTH);
    }
    let no_such_class = classes.iter().any(|&class| class > inputs::LAST_CLASS);
    if !codes_are_right || no_such_class || set > inputs::ALL_CLASSES {
        return Err(NO_SUCH_CODE);
    }
    if set == 0 { Err(NO_CLASS) } else { Ok(()) }
}

impl Classed {
    fn set(&self) -> ClassSet {
        ClassSet::from_bits(self.set)
    }

    /// The samples that the Rust is handed, or the row of the rules before it, where the call's own codes are these.
    fn samples(&self, codes_are_right: bool) -> Result<Vec<[f64; 4]>, u32> {
        row_by_class(self.set, self.words.len(), &self.classes, codes_are_right)?;
        Ok(named_samples(self.set, &self.words, &self.classes))
    }
}

/// A type and a flag, at times one that there isn't, and whether both are right.
fn codes(case: &mut Case) -> (u8, u8, bool) {
    let random = &mut case.random;
    let mut kind = 1 + random.below(3) as u8;
    let mut flag = random.below(2) as u8;
    if random.one_in(40) {
        kind = random.pick(&[0, 4, 255]);
    }
    if random.one_in(40) {
        flag = random.pick(&[2, 255]);
    }
    case.note("type, flag", (kind, flag));
    (kind, flag, (1..=3).contains(&kind) && flag < 2)
}

fn fit_by_class(case: &mut Case) -> Result<(), String> {
    let words = inputs::words(&mut case.random);
    let list = classed(case, words);
    let (kind, ..) = codes(case);
    let ours = row(belt::fit_by_class(list.set(), kind, &list.words, &list.classes));
    case.accepted = ours.is_ok();
    let ours = ours.map(|fitted| (fitted.gm_type, fitted.numbers.map(bits)));
    let theirs = list.samples((1..=3).contains(&kind));
    let theirs = theirs.and_then(|samples| oracle::fit(kind, &samples).ok_or(SINGULAR));
    same("bits of the numbers", ours, theirs.map(|numbers| (kind, carried(kind, numbers))))
}

fn quantized_by_class(case: &mut Case) -> Result<(), String> {
    let words = inputs::words(&mut case.random);
    let list = classed(case, words);
    let (kind, flag, right) = codes(case);
    let samples = list.samples(right);
    let own = samples.as_ref().ok().filter(|_| case.random.one_in(2)).and_then(|samples| oracle::fit(kind, samples));
    let numbers = own.unwrap_or_else(|| std::array::from_fn(|_| float(&mut case.random)));
    case.note("numbers", numbers);
    let fitted = Fitted { gm_type: kind, numbers };
    let ours = row(belt::quantize_by_class(list.set(), &fitted, flag, &list.words, &list.classes));
    case.accepted = ours.is_ok();
    same("model", ours, samples.map(|samples| rust_quantized(kind, flag, numbers, &samples)))
}

fn score_by_class(case: &mut Case) -> Result<(), String> {
    let words = inputs::words(&mut case.random);
    let list = classed(case, words);
    let params = to_score(case);
    let ours = row(belt::score_by_class(list.set(), &Model(params), &list.words, &list.classes)).map(bits);
    case.accepted = ours.is_ok();
    same("bits of the score", ours, list.samples(true).map(|samples| bits(oracle::score(&params, &samples))))
}

fn trimmed_fit_by_class(case: &mut Case) -> Result<(), String> {
    let words = inputs::loose_words(&mut case.random);
    let list = classed(case, words);
    let (kind, ..) = codes(case);
    let ours = row(belt::fit_trimmed_by_class(list.set(), kind, &list.words, &list.classes));
    let theirs = list.samples((1..=3).contains(&kind));
    same_trimmed(case, ours, kind, theirs.and_then(|samples| oracle::trimmed_or_row(kind, false, &samples)))
}

fn trimmed_model_by_class(case: &mut Case) -> Result<(), String> {
    let words = inputs::loose_words(&mut case.random);
    let list = classed(case, words);
    let (kind, flag, right) = codes(case);
    let ours = row(belt::quantize_trimmed_by_class(list.set(), kind, flag, &list.words, &list.classes));
    let theirs = list.samples(right).and_then(|samples| oracle::trimmed_or_row(kind, flag == 1, &samples));
    same_trimmed_model(case, ours, theirs)
}

fn election_by_class(case: &mut Case) -> Result<(), String> {
    let words = inputs::words_to_elect(&mut case.random);
    let list = classed(case, words);
    let (_, flag, _) = codes(case);
    let ours = row(belt::elect_by_class(list.set(), flag, &list.words, &list.classes));
    case.accepted = ours.is_ok();
    let theirs = list.samples(flag < 2).and_then(|samples| rust_elected(flag, &samples));
    same("type, model, bits of the score", ours.map(elected), theirs)
}

/// Samples with the layout of the library.
fn lent(samples: &[[f64; 4]]) -> Vec<MotionSample> {
    samples.iter().map(|&[x, y, u, v]| MotionSample { x, y, u, v }).collect()
}

fn fit_samples(case: &mut Case, kind: u8) -> Result<(), String> {
    let samples = inputs::samples(&mut case.random);
    case.note("samples", &samples);
    let fits = [belt::fit_translation_samples, belt::fit_rotzoom_samples, belt::fit_affine_samples];
    let ours = row(fits[usize::from(kind) - 1](&lent(&samples)));
    let ours = ours.map(|fitted| (fitted.gm_type, fitted.numbers.map(bits)));
    case.accepted = ours.is_ok();
    let theirs = oracle::fit(kind, &samples).map(|numbers| (kind, carried(kind, numbers)));
    same("bits of the numbers", ours, theirs.ok_or(SINGULAR))
}

/// A type, a flag, and numbers that are free or those of the samples' fit.
fn to_quantize(case: &mut Case, samples: &[[f64; 4]]) -> (u8, u8, [f64; 6]) {
    let random = &mut case.random;
    let (kind, flag) = (1 + random.below(3) as u8, random.below(2) as u8);
    let mut numbers: [f64; 6] = std::array::from_fn(|_| float(random));
    let own = random.one_in(2);
    if let (true, Some(fitted)) = (own, oracle::fit(kind, samples)) {
        numbers = fitted;
    }
    case.note("type, flag", (kind, flag));
    case.note("numbers", numbers);
    (kind, flag, numbers)
}

/// The Rust's model; a rotation-zoom's last two numbers follow from the two before them.
fn rust_quantized(kind: u8, flag: u8, mut numbers: [f64; 6], samples: &[[f64; 4]]) -> Model {
    if kind == 2 {
        (numbers[4], numbers[5]) = (-numbers[3], numbers[2]);
    }
    Model(oracle::quantize_model(&numbers, kind, flag == 1, samples))
}

fn quantized_model(case: &mut Case) -> Result<(), String> {
    let words = inputs::words(&mut case.random);
    case.note("words", &words);
    let (kind, flag, numbers) = to_quantize(case, &samples(&words));
    let ours = belt::quantize_model(&Fitted { gm_type: kind, numbers }, flag, &words);
    same("model", ours, Ok(rust_quantized(kind, flag, numbers, &samples(&words))))
}

fn quantized_samples(case: &mut Case) -> Result<(), String> {
    let samples = inputs::samples(&mut case.random);
    case.note("samples", &samples);
    let (kind, flag, numbers) = to_quantize(case, &samples);
    let ours = belt::quantize_model_samples(&Fitted { gm_type: kind, numbers }, flag, &lent(&samples));
    same("model", ours, Ok(rust_quantized(kind, flag, numbers, &samples)))
}

/// A model to be scored: about the identity or free.
fn to_score(case: &mut Case) -> [i32; 6] {
    let random = &mut case.random;
    let near = random.one_in(2);
    let params: [i32; 6] = std::array::from_fn(|slot| match near {
        true => oracle::IDENTITY[slot] + random.between(-9000, 9000) as i32,
        false => number(random),
    });
    case.note("model", params);
    params
}

fn score_samples(case: &mut Case) -> Result<(), String> {
    let samples = inputs::samples(&mut case.random);
    case.note("samples", &samples);
    let params = to_score(case);
    let ours = belt::mean_sq_residual_samples(&Model(params), &lent(&samples)).map(bits);
    same("bits of the score", ours, Ok(bits(oracle::score(&params, &samples))))
}

fn trimmed_fit_samples(case: &mut Case) -> Result<(), String> {
    let samples = inputs::loose_samples(&mut case.random);
    let kind = 1 + case.random.below(3) as u8;
    case.note("type", kind);
    case.note("samples", &samples);
    let ours = row(belt::fit_trimmed_samples(kind, &lent(&samples)));
    same_trimmed(case, ours, kind, oracle::trimmed_or_row(kind, false, &samples))
}

fn trimmed_model_samples(case: &mut Case) -> Result<(), String> {
    let samples = inputs::loose_samples(&mut case.random);
    let (kind, flag) = (1 + case.random.below(3) as u8, case.random.below(2) as u8);
    case.note("type, flag", (kind, flag));
    case.note("samples", &samples);
    let ours = row(belt::quantize_trimmed_samples(kind, flag, &lent(&samples)));
    same_trimmed_model(case, ours, oracle::trimmed_or_row(kind, flag == 1, &samples))
}

/// All six calls by a set over one list of samples; some that the set doesn't name become any others.
fn samples_by_class(case: &mut Case) -> Result<(), String> {
    let mut samples = inputs::samples_to_elect(&mut case.random);
    let random = &mut case.random;
    let bits_named = inputs::any_class_set(random);
    let mut classes = inputs::classes(random, samples.len());
    for (sample, &class) in samples.iter_mut().zip(&classes) {
        if !named(bits_named, class) && random.one_in(2) {
            *sample = std::array::from_fn(|_| float(random));
        }
    }
    spoil(random, &mut samples, &mut classes, [0.5; 4]);
    case.note("set", bits_named);
    case.note("classes", &classes);
    case.note("samples", &samples);
    let (kind, flag, right) = codes(case);
    let params = to_score(case);
    let pairs = samples.iter().zip(&classes).filter(|&(_, &class)| named(bits_named, class));
    let own: Vec<[f64; 4]> = pairs.map(|(&sample, _)| sample).collect();
    let numbers =
        oracle::fit(kind.clamp(1, 3), &own).unwrap_or_else(|| std::array::from_fn(|_| float(&mut case.random)));
    case.note("numbers", numbers);

    let (set, list) = (ClassSet::from_bits(bits_named), lent(&samples));
    let theirs = |right| row_by_class(bits_named, samples.len(), &classes, right);
    let a_type = (1..=3).contains(&kind);
    let ours = row(belt::fit_samples_by_class(set, kind, &list, &classes));
    let rust = theirs(a_type).and_then(|()| oracle::fit(kind, &own).ok_or(SINGULAR));
    let ours = ours.map(|fitted| (fitted.gm_type, fitted.numbers.map(bits)));
    same("bits of the numbers", ours, rust.map(|numbers| (kind, carried(kind, numbers))))?;
    let ours = row(belt::quantize_samples_by_class(set, &Fitted { gm_type: kind, numbers }, flag, &list, &classes));
    same("model", ours, theirs(right).map(|()| rust_quantized(kind, flag, numbers, &own)))?;
    let ours = row(belt::score_samples_by_class(set, &Model(params), &list, &classes)).map(bits);
    same("bits of the score", ours, theirs(true).map(|()| bits(oracle::score(&params, &own))))?;
    let ours = row(belt::fit_trimmed_samples_by_class(set, kind, &list, &classes));
    same_trimmed(case, ours, kind, theirs(a_type).and_then(|()| oracle::trimmed_or_row(kind, false, &own)))?;
    let ours = row(belt::quantize_trimmed_samples_by_class(set, kind, flag, &list, &classes));
    same_trimmed_model(case, ours, theirs(right).and_then(|()| oracle::trimmed_or_row(kind, flag == 1, &own)))?;
    let ours = row(belt::elect_samples_by_class(set, flag, &list, &classes));
    case.accepted = ours.is_ok();
    same("type, model, bits of the score", ours.map(elected), theirs(flag < 2).and_then(|()| rust_elected(flag, &own)))
}

fn score(case: &mut Case) -> Result<(), String> {
    let words = inputs::words(&mut case.random);
    case.note("words", &words);
    let params = to_score(case);
    let ours = belt::mean_sq_residual(&Model(params), &words).map(bits);
    same("bits of the score", ours, Ok(bits(oracle::score(&params, &samples(&words)))))
}

fn grid(case: &mut Case) -> Result<(), String> {
    let random = &mut case.random;
    let (kind, flag, slot) = (random.below(4) as u8, random.below(2) as u8, random.below(6) as u8);
    let value = number(random);
    case.note("type, flag, slot, value", (kind, flag, slot, value));
    let ours = belt::quantize_global_param(kind, flag, slot, value);
    same("number", ours, Ok(oracle::quantize_global_param(kind, flag == 1, usize::from(slot), value)))
}

/// Seven types and models as stored, the flag and a prior.
struct Header {
    types: [u8; 7],
    params: Models,
    flag: u8,
    prior: Models,
}

fn header(case: &mut Case) -> Header {
    let random = &mut case.random;
    let flag = random.below(2) as u8;
    let few = random.one_in(3);
    let kind = |random: &mut Random| if few && !random.one_in(4) { 0 } else { random.below(4) as u8 };
    let types: [u8; 7] = std::array::from_fn(|_| kind(random));
    let params = types.map(|kind| stored_model(random, kind, flag == 1));
    let prior = params.map(|model| prior(random, &model));
    case.note("flag", flag);
    case.note("types", types);
    case.note("models", params);
    case.note("prior", prior);
    Header { types, params, flag, prior }
}

impl Header {
    fn write(&self, start: usize, room: &mut [u8]) -> Result<usize, Refusal> {
        let (models, prior) = (self.params.map(StoredModel), self.prior.map(StoredModel));
        belt::encode_inter_global_motion(&self.types, &models, self.flag, &prior, start, room)
    }

    /// The Rust's bytes from bit `start` on, zeros before it, and bits.
    fn written(&self, start: usize) -> (Vec<u8>, usize) {
        oracle::write_header(&self.types, &self.params, self.flag == 1, &self.prior, start)
    }
}

fn header_written(case: &mut Case) -> Result<(), String> {
    let header = header(case);
    let start = start(&mut case.random);
    let (mut bytes, count) = header.written(start);
    let room = match case.random.below(4) {
        0 => case.random.below(bytes.len()),
        1 => bytes.len(),
        2 => bytes.len() + case.random.below(8),
        _ => belt::HEADER_BYTES + case.random.below(8),
    };
    case.note("start", start);
    case.note("room", room);
    let before = case.random.bytes(room);
    let mut after = before.clone();
    let ours = row(header.write(start, &mut after));
    case.accepted = ours.is_ok();
    if room < bytes.len() {
        same("bits", ours, Err(TOO_SHORT))?;
        return same_list("bytes", &after, &before);
    }
    same("bits", ours, Ok(count))?;
    keep_before(start, &mut bytes, &before);
    same_list("bytes", &after, &[&bytes, &before[bytes.len()..]].concat())
}

/// The lengths of the codes that the Rust writes for every ordinal of a slot, counted.
fn price_list(case: &mut Case) -> Result<(), String> {
    let random = &mut case.random;
    let (kind, flag) = (1 + random.below(3) as u8, random.below(2) as u8);
    let slot = random.below([2, 4, 6][kind as usize - 1]);
    let model = stored_model(random, kind, flag == 1);
    let prior = prior(random, &model)[slot];
    case.note("type, flag, slot, prior", (kind, flag, slot, prior));
    let ours = row(belt::coefficient_prices(kind, flag, slot as u8, prior));
    case.accepted = ours.is_ok();
    let (high, translation) = (flag == 1, kind == 1 && slot < 2);
    let abs_bits = if translation { 8 + u32::from(high) } else { 12 };
    let step = if translation { 1 << (14 - u32::from(high)) } else { 1 << if slot < 2 { 10 } else { 1 } };
    let centre = if slot == 2 || slot == 5 { 65536 } else { 0 };
    let mut counts = vec![0; 2 * abs_bits as usize - belt::PriceList::SHORTEST];
    for ordinal in -(1 << abs_bits)..=1 << abs_bits {
        let code = oracle::coefficient(kind, high, slot, prior, ordinal * step + centre);
        counts[code.len() - belt::PriceList::SHORTEST] += 1;
    }
    same("ordinals", ours.map(|list| list.ordinals().to_vec()), Ok(counts))
}

fn frame_price(case: &mut Case) -> Result<(), String> {
    let header = header(case);
    let (models, prior) = (header.params.map(StoredModel), header.prior.map(StoredModel));
    let ours = row(belt::frame_price(FrameKind::Inter, &header.types, &models, header.flag, &prior));
    case.accepted = ours.is_ok();
    same("bits", ours, Ok(header.written(0).1))
}

/// A bit of the first byte, the first one more often than the others.
fn start(random: &mut Random) -> usize {
    if random.one_in(4) { 0 } else { random.below(8) }
}

/// The bits before the start are those that were there.
fn keep_before(start: usize, bytes: &mut [u8], before: &[u8]) {
    bytes[0] |= before[0] & !(0xff >> start);
}

/// Both readings of some bytes from a bit on.
fn read(case: &mut Case, bytes: &[u8], at: usize, flag: u8, prior: &Models) -> Result<(), String> {
    case.note("bytes", bytes);
    case.note("from bit", at);
    let ours = row(belt::read_global_motion_params(bytes, at, flag, &prior.map(StoredModel)));
    case.accepted = ours.is_ok();
    let ours = ours.map(|read| (read.types, read.models.map(|model| model.0), read.bits));
    let theirs = oracle::read_header(bytes, at, flag == 1, prior);
    same("types, models and bits", ours, theirs.ok_or(ENDS_FIRST))
}

/// The Rust's header from a bit on, with other bits before and behind it.
fn header_read(case: &mut Case) -> Result<(), String> {
    let header = header(case);
    let (bytes, count) = header.written(0);
    let at = if case.random.one_in(3) { 0 } else { case.random.below(70) };
    let room = (at + count).div_ceil(8) + case.random.below(4);
    let mut all = case.random.bytes(room);
    for i in 0..count {
        let bit = bytes[i / 8] >> (7 - i % 8) & 1;
        let (byte, shift) = ((at + i) / 8, 7 - (at + i) % 8);
        all[byte] = all[byte] & !(1 << shift) | bit << shift;
    }
    read(case, &all, at, header.flag, &header.prior)?;
    let back = belt::read_global_motion_params(&all, at, header.flag, &header.prior.map(StoredModel));
    let back = back.map(|read| (read.types, read.models, read.bits));
    same("what was written", back, Ok((header.types, header.params.map(StoredModel), count)))
}

/// A header that is cut, has bits flipped, is read with another flag or prior, or is no header at all.
fn header_damaged(case: &mut Case) -> Result<(), String> {
    let header = header(case);
    let (mut bytes, _) = header.written(0);
    let (mut at, mut flag, mut prior) = (0, header.flag, header.prior);
    let random = &mut case.random;
    match random.below(6) {
        0 => bytes.truncate(random.below(bytes.len())),
        1 | 2 => {
            for _ in 0..1 + random.below(4) {
                let bit = random.below(8 * bytes.len());
                bytes[bit / 8] ^= 1 << (bit % 8);
            }
            if random.one_in(3) {
                bytes.extend(random.bytes(130));
            }
        }
        3 => {
            let count = random.pick(&[0, 1, 3, 30, 123, 124, 125, 140]);
            bytes = random.bytes(count);
        }
        4 => {
            bytes.fill(0xff);
            bytes.resize(random.below(140), 0xff);
        }
        _ => {
            flag = 1 - flag;
            let any = inputs::prior(random, &oracle::IDENTITY);
            prior[random.below(7)] = any;
            bytes.extend(random.bytes(9));
        }
    }
    if random.one_in(3) {
        at = random.below(8 * bytes.len() + 20);
    }
    if random.one_in(100) {
        at = usize::MAX - random.below(70);
    }
    case.note("damaged: flag", flag);
    case.note("damaged: prior", prior);
    read(case, &bytes, at, flag, &prior)
}

/// A key frame written, which leaves every byte, and read from anywhere. A model that isn't the identity is refused.
fn key_frame(case: &mut Case) -> Result<(), String> {
    let random = &mut case.random;
    let flag = random.below(2) as u8;
    let reference = random.below(7);
    let (mut types, mut models) = ([0; 7], belt::IDENTITIES);
    if random.one_in(4) {
        types[reference] = random.below(4) as u8;
        models[reference] = StoredModel(stored_model(random, types[reference], flag == 1));
    }
    let prior: Vec<StoredModel> = (0..random.below(9)).map(|_| StoredModel([number(random); 6])).collect();
    let start = random.below(10);
    let before = {
        let room = random.below(4);
        random.bytes(room)
    };
    let at = if random.one_in(2) { start } else { random.bits() as usize };
    case.note("types, models", (types, models));
    case.note("flag, prior", (flag, &prior));
    case.note("start, position, bytes", (start, at, &before));
    let mut after = before.clone();
    let ours = row(belt::encode_global_motion(FrameKind::Key, &types, &models, flag, &prior, start, &mut after));
    case.accepted = ours.is_ok();
    let plain = (types, models) == ([0; 7], belt::IDENTITIES);
    same(
        "bits",
        ours,
        if start > 7 {
            Err(START_OVER)
        } else if plain {
            Ok(0)
        } else {
            Err(OFF_GRID)
        },
    )?;
    same_list("bytes", &after, &before)?;
    let read = row(belt::read_global_motion(FrameKind::Key, &after, at, flag, &prior));
    let read = read.map(|read| (read.types, read.models.map(|model| model.0), read.bits));
    same("types, models and bits", read, Ok(oracle::read_key_frame(&after, at)))
}

/// A frame's number, at times that of a closed shutter.
fn frame_number(random: &mut Random) -> u16 {
    if random.one_in(20) { blocks::CLOSED } else { random.bits() as u16 }
}

/// A job's own model by the Rust's answers: its type, as stored, and its score.
fn own_of_the_rust(settings: Settings, samples: &[[f64; 4]]) -> Result<(u8, [i32; 6], f64), u32> {
    let Settings { gm_type, flag, trim, elect, .. } = settings;
    if elect == 1 {
        let elected = oracle::elect_or_row(flag == 1, samples)?;
        return Ok((elected.kind, elected.params, elected.score));
    }
    let model = match trim {
        1 => oracle::trimmed_or_row(gm_type, flag == 1, samples)?.params,
        _ => {
            let fitted = oracle::fit(gm_type, samples).ok_or(SINGULAR)?;
            oracle::quantize_model(&fitted, gm_type, flag == 1, samples)
        }
    };
    Ok((gm_type, Model(model).row_first(gm_type).0, oracle::score(&model, samples)))
}

/// The types, the models, the score, the header's bits and the samples that a job reports.
type Reported = ([u8; 7], [StoredModel; 7], f64, usize, usize);

/// The composition of the Rust's answers: what a job reports and leaves, its blocks in a form.
fn job_of_the_rust(
    pair: &Pair,
    settings: Settings,
    header: &Header,
    form: Form,
    left: &mut Buffers,
) -> Result<Reported, u32> {
    let Settings { frame, gm_type, trim, elect, set, .. } = settings;
    if set.bits() > inputs::ALL_CLASSES {
        return Err(NO_SUCH_CODE);
    }
    if set.bits() == 0 {
        return Err(NO_CLASS);
    }
    if pair.classes.iter().any(|&class| class > form.last_class) {
        return Err(NOT_HELD);
    }
    let trims = trim == 1 && elect == 0;
    let named = pair.classes.iter().filter(|&&class| named(set.bits(), class)).count();
    if trims && named < oracle::least_samples(gm_type) {
        return Err(TOO_FEW);
    }
    if frame == blocks::CLOSED {
        return Err(CLOSED);
    }
    let words = searched(pair, left);
    let Buffers { blocks, header: bytes, .. } = left;
    finished_by_the_rust(&words, &pair.classes, settings, header, form, blocks, bytes)
}

/// The same from the words on, where no row before the fit's refuses.
fn finished_by_the_rust(
    words: &[u32],
    classes: &[u8],
    settings: Settings,
    header: &Header,
    form: Form,
    blocks_left: &mut [u8],
    header_left: &mut [u8],
) -> Result<Reported, u32> {
    let Settings { frame, reference, flag, set, start, .. } = settings;
    let place = usize::from(reference) - 1;
    let mut full = Header { flag, ..*header };
    let score;
    let own = named_samples(set.bits(), words, classes);
    (full.types[place], full.params[place], score) = own_of_the_rust(settings, &own)?;
    let (mut bytes, bits) = full.written(start);
    keep_before(start, &mut bytes, header_left);
    header_left[..bytes.len()].copy_from_slice(&bytes);
    let stored = blocks::write(form, frame, &blocks::classed(words, classes));
    blocks_left[..stored.len()].copy_from_slice(&stored);
    Ok((full.types, full.params.map(StoredModel), score, bits, words.len()))
}

/// What a job of words is handed.
struct OfWords {
    words: Vec<u32>,
    classes: Vec<u8>,
    settings: Settings,
    types: Vec<u8>,
    models: Vec<[i32; 6]>,
    prior: Vec<[i32; 6]>,
}

impl OfWords {
    /// The row of the rules before the fit's; in a run that has the prior's models and a flag, and holds a form.
    fn row(&self, held: Option<&run::Run>, blocks: usize, header: usize) -> Result<(), u32> {
        let Settings { frame, gm_type, reference, flag, trim, elect, set, start, .. } = self.settings;
        let own =
            run::Run { prior: std::array::from_fn(|i| self.prior.get(i).copied().unwrap_or_default()), flag, form: 2 };
        let run = held.unwrap_or(&own);
        let asked = elect == 1 || (1..=3).contains(&gm_type) && trim < 2;
        let codes = elect < 2 && asked && set.bits() <= inputs::ALL_CLASSES && self.types.iter().all(|&kind| kind < 4);
        let classes = self.classes.iter().all(|&class| class <= inputs::LAST_CLASS);
        let high = run.flag == 1;
        let named = self.classes.iter().filter(|&&class| named(set.bits(), class)).count();
        let samples = self.words.len();
        let lengths = [self.classes.len(), self.types.len(), self.models.len()] != [samples, 6, 6];
        match () {
            () if samples > inputs::MOST_SAMPLES => Err(TOO_LARGE),
            () if lengths || held.is_none() && self.prior.len() != 7 => Err(WRONG_LENGTH),
            () if !codes || !classes || run.judged() == Err(NO_SUCH_CODE) => Err(NO_SUCH_CODE),
            () if set.bits() == 0 => Err(NO_CLASS),
            () if !(1..=7).contains(&reference) => Err(NO_SUCH_SLOT),
            () if start > 7 => Err(START_OVER),
            () if self.types.iter().zip(&self.models).any(|(&kind, model)| run::off_grid(kind, high, model)) => {
                Err(OFF_GRID)
            }
            () if !run.prior_is_in_range() => Err(run::PRIOR_OUT),
            () if !blocks::storable(&self.words) => Err(blocks::NOT_RISING),
            () if held.is_some() && !run.holds(&self.classes) => Err(NOT_HELD),
            () if blocks < BLOCK * run.form_held().blocks_of(samples) || header < belt::HEADER_BYTES => Err(TOO_SHORT),
            () if trim == 1 && elect == 0 && named < oracle::least_samples(gm_type) => Err(TOO_FEW),
            () if frame == blocks::CLOSED => Err(CLOSED),
            () => Ok(()),
        }
    }

    /// Something that a row refuses.
    fn spoil(&mut self, random: &mut Random) {
        let (six, count) = (random.below(6), self.words.len());
        match random.below(17) {
            0 => self.words.resize(inputs::MOST_SAMPLES + 1, inputs::STILL),
            1 => self.classes.resize(random.below(count + 2), 0),
            2 => self.types.resize(random.pick(&[0, 5, 7]), 0),
            3 => self.models.resize(random.pick(&[0, 5, 7]), oracle::IDENTITY),
            4 => self.prior.resize(random.pick(&[0, 6, 8]), oracle::IDENTITY),
            5 => self.classes.iter_mut().take(1).for_each(|class| *class = random.pick(&[5, 255])),
            6 => self.settings.flag = random.pick(&[2, 255]),
            7 => self.settings.set = ClassSet::from_bits(random.pick(&[0, 32, 0x80])),
            8 => self.settings.reference = random.pick(&[0, 8, 255]),
            9 => self.settings.start = random.pick(&[8, usize::MAX]),
            10 => self.models.iter_mut().take(1).for_each(|model| model[six] = number(random)),
            11 => self.prior.iter_mut().take(1).for_each(|model| model[six] = number(random)),
            12 => self.settings.frame = 0,
            13 => self.types.iter_mut().take(1).for_each(|kind| *kind = 4),
            _ if count < 2 => self.settings.elect = 2,
            _ => {
                let (i, j) = (random.below(count), random.below(count));
                match random.below(5) {
                    0 => self.words.swap(i, j),
                    1 => self.words[i] = self.words[j],
                    2 => self.words[i] |= 1 + random.below(3) as u32,
                    3 => self.words[i] = self.words[i] & !(511 << 11) | (447 + random.below(65) as u32) << 11,
                    _ => self.words[i] = self.words[i] & !(511 << 2) | (447 + random.below(65) as u32) << 2,
                }
            }
        }
    }
}

/// A job of words, of a search or of any that can be stored, or of others, outside or in a run.
fn job_of_words(case: &mut Case) -> Result<(), String> {
    let header = header(case);
    let random = &mut case.random;
    let words = match random.below(3) {
        0 => inputs::rising_words(random),
        _ => {
            let mut words = inputs::words_to_elect(random);
            words.iter_mut().for_each(|word| *word = storable_motion(*word));
            words.sort_by_key(|word| word >> 20);
            words.dedup_by_key(|word| *word >> 20);
            words
        }
    };
    let classes = classes_of(random, words.len());
    let held = match random.below(3) {
        0 => None,
        form => Some(run::Run { prior: header.prior, flag: header.flag, form: form as u32 }),
    };
    let mut settings = Settings::elect(frame_number(random));
    settings.gm_type = 1 + random.below(3) as u8;
    settings.reference = 1 + random.below(7) as u8;
    settings.flag = if held.is_some() { random.bits() as u8 } else { header.flag };
    (settings.trim, settings.elect) = (random.below(2) as u8, random.below(2) as u8);
    settings.set = if random.one_in(2) { ClassSet::ALL } else { ClassSet::from_bits(inputs::any_class_set(random)) };
    settings.start = start(random);
    let place = usize::from(settings.reference) - 1;
    let others = |i: &usize| *i != place;
    let types = (0..7).filter(others).map(|i| header.types[i]).collect();
    let models = (0..7).filter(others).map(|i| header.params[i]).collect();
    let mut of = OfWords { words, classes, settings, types, models, prior: header.prior.to_vec() };
    for _ in 0..[0, 0, 0, 0, 1, 2][random.below(6)] {
        of.spoil(random);
    }
    let form = held.map_or(TWO, |run| run.form_held());
    let needed = [BLOCK * form.blocks_of(of.words.len()), belt::HEADER_BYTES];
    let rooms = needed.map(|bytes| if random.one_in(12) { random.below(bytes + 1) } else { bytes + random.below(30) });
    let [mut blocks, mut bytes] = rooms.map(|room| random.bytes(room));
    let (mut blocks_left, mut bytes_left) = (blocks.clone(), bytes.clone());
    case.note("held", held);
    case.note("settings", of.settings);
    case.note("types, models", (&of.types, &of.models));
    case.note("prior", &of.prior);
    case.note("rooms", rooms);
    case.note("words", &of.words);
    case.note("classes", &of.classes);
    let stored = |models: &[[i32; 6]]| models.iter().map(|&model| StoredModel(model)).collect::<Vec<_>>();
    let (models, prior) = (stored(&of.models), stored(&of.prior));
    let task = WordTask {
        words: &of.words,
        settings: of.settings,
        classes: &of.classes,
        types: &of.types,
        models: &models,
        prior: &prior,
    };
    let mut after = header.prior.map(StoredModel);
    let report = row(match held {
        None => belt::job_of_words(&task, &mut blocks, &mut bytes),
        Some(held) => {
            let mut run = Run::of_parts(after, held.flag, held.form);
            let report = run.job_of_words(&WordTask { prior: &[], ..task }, &mut blocks, &mut bytes);
            after = *run.prior();
            same("flag and form of the run", (run.flag(), run.form()), (held.flag, held.form))?;
            report
        }
    });
    case.accepted = report.is_ok();
    let rust = of.row(held.as_ref(), rooms[0], rooms[1]).and_then(|()| {
        let mut settings = of.settings;
        settings.flag = header.flag;
        let mut full = full_header(&of, &header);
        if held.is_none() {
            full.prior = std::array::from_fn(|i| of.prior[i]);
        }
        finished_by_the_rust(&of.words, &of.classes, settings, &full, form, &mut blocks_left, &mut bytes_left)
    });
    let moved = rust.as_ref().map_or(header.prior.map(StoredModel), |report| report.1);
    same("prior of the run", after, if held.is_some() { moved } else { header.prior.map(StoredModel) })?;
    let parts = |report: Report| (report.types, report.models, bits(report.score), report.bits, report.samples);
    let rust_parts = |(types, models, score, count, samples): Reported| (types, models, bits(score), count, samples);
    same("types, models, bits of the score, header bits, samples", report.map(parts), rust.map(rust_parts))?;
    same_list("blocks", &blocks, &blocks_left)?;
    same_list("header", &bytes, &bytes_left)
}

/// The seven models of an accepted job, with any at its own place.
fn full_header(of: &OfWords, header: &Header) -> Header {
    let place = usize::from(of.settings.reference) - 1;
    let other = |i: usize| if i < place { i } else { i - 1 };
    let own = |i: usize| i == place;
    Header {
        types: std::array::from_fn(|i| if own(i) { header.types[i] } else { of.types[other(i)] }),
        params: std::array::from_fn(|i| if own(i) { header.params[i] } else { of.models[other(i)] }),
        ..*header
    }
}

/// A word with both motions in range and no class bits.
fn storable_motion(word: u32) -> u32 {
    let motion = |shift: u32| (word >> shift & 511).min(446) << shift;
    word & 0xFFF0_0000 | motion(11) | motion(2)
}

/// A type and a trim code of any number go in with an election, which looks at neither.
fn electing_job(case: &mut Case) -> Result<(), String> {
    let trim = case.random.bits() as u8;
    job(case, trim, 1, None)
}

/// A job in a run of either form, with the prior and the flag of its header; mostly without film in form 1.
fn job_in_a_run(case: &mut Case) -> Result<(), String> {
    let form = case.random.pick(&[ONE, TWO]);
    let (trim, elect) = (case.random.below(2) as u8, case.random.below(2) as u8);
    case.note("form", form.number);
    job(case, trim, elect, Some(form))
}

/// A job outside, or in a run that holds a form.
fn job(case: &mut Case, trim: u8, elect: u8, held: Option<Form>) -> Result<(), String> {
    let mut pair = pair(case);
    let header = header(case);
    let random = &mut case.random;
    if held == Some(ONE) && !random.one_in(8) {
        pair.classes.iter_mut().for_each(|class| *class = (*class).min(ONE.last_class));
    }
    let mut settings = Settings::elect(frame_number(random));
    settings.gm_type = if elect == 1 { random.bits() as u8 } else { 1 + random.below(3) as u8 };
    settings.reference = 1 + random.below(7) as u8;
    // in a run the settings' own isn't looked at
    settings.flag = if held.is_some() { random.bits() as u8 } else { header.flag };
    (settings.trim, settings.elect) = (trim, elect);
    settings.set = if random.one_in(2) { ClassSet::ALL } else { ClassSet::from_bits(inputs::any_class_set(random)) };
    settings.start = start(random);
    let mut ours = buffers(random, pair.width, pair.height);
    let mut theirs = ours.clone();
    case.note("settings", settings);
    let place = usize::from(settings.reference) - 1;
    let others = |i: &usize| *i != place;
    let types: Vec<u8> = (0..7).filter(others).map(|i| header.types[i]).collect();
    let models: Vec<StoredModel> = (0..7).filter(others).map(|i| StoredModel(header.params[i])).collect();
    let prior = header.prior.map(StoredModel);
    let task = Task {
        input: &pair.input,
        reference: &pair.reference,
        width: pair.width,
        height: pair.height,
        settings,
        classes: &pair.classes,
        types: &types,
        models: &models,
        prior: &prior,
    };
    let mut after = prior;
    let report = row(match held {
        None => belt::job(&task, &mut ours.lend()),
        Some(form) => {
            let mut run = Run::of_parts(prior, header.flag, u32::from(form.number));
            let report = run.job(&Task { prior: &[], ..task }, &mut ours.lend());
            after = *run.prior();
            same("flag and form of the run", (run.flag(), run.form()), (header.flag, u32::from(form.number)))?;
            report
        }
    });
    case.accepted = report.is_ok();
    let parts = |report: Report| (report.types, report.models, bits(report.score), report.bits, report.samples);
    let rust_parts = |(types, models, score, count, samples): Reported| (types, models, bits(score), count, samples);
    let mut rust_settings = settings;
    rust_settings.flag = header.flag;
    let rust = job_of_the_rust(&pair, rust_settings, &header, held.unwrap_or(TWO), &mut theirs);
    let moved = rust.as_ref().map_or(prior, |report| report.1);
    same("prior of the run", after, if held.is_some() { moved } else { prior })?;
    same("types, models, bits of the score, header bits, samples", report.map(parts), rust.map(rust_parts))?;
    same_list("half plane of the input", &ours.input_half, &theirs.input_half)?;
    same_list("half plane of the reference", &ours.ref_half, &theirs.ref_half)?;
    same_list("words", &ours.words, &theirs.words)?;
    same_list("blocks", &ours.blocks, &theirs.blocks)?;
    same_list("header", &ours.header, &theirs.header)
}

/// A run begun or handed in, good or bad, and random events; beside it the same by the Rust's header writer and reader,
/// with the prior carried by hand, and a reader that is handed what was accepted.
fn run_of_frames(case: &mut Case) -> Result<(), String> {
    let (mut ours, mut reader, mut theirs) = match begun(case)? {
        Some(run) => run,
        None => return Ok(()),
    };
    let mut last = ([0; 7], [oracle::IDENTITY; 7]);
    for event in 0..1 + case.random.below(12) {
        case.note("event", event);
        match case.random.below(8) {
            0 | 1 => switch(case, &mut ours, &mut reader, &mut theirs)?,
            2 => store(case, &ours, &theirs)?,
            3 => read_beside(case, &reader, theirs)?,
            _ => frame(case, &mut ours, &mut reader, &mut theirs, &mut last)?,
        }
        let parts = (ours.prior().map(|model| model.0), ours.flag(), ours.form());
        same("the run", parts, (theirs.prior, theirs.flag, theirs.form))?;
        let reads = (reader.prior().map(|model| model.0), reader.flag(), reader.form());
        same("the reader", reads, parts)?;
    }
    Ok(())
}

/// The run, its reader and the one carried by hand; none where its start is refused.
fn begun(case: &mut Case) -> Result<Option<(Run, RunReader, run::Run)>, String> {
    let random = &mut case.random;
    let mut flag = random.below(2) as u8;
    let mut form = 1 + random.below(2) as u32;
    if random.one_in(16) {
        flag = random.pick(&[2, 255]);
    }
    if random.one_in(16) {
        form = random.pick(&[0, 3, u32::MAX]);
    }
    let handed = random.one_in(4);
    case.note("flag, form", (flag, form));
    if !handed {
        let theirs = run::Run::start(flag, form);
        let ours = row(Run::start(flag, form));
        case.accepted = ours.is_ok();
        same("start", ours.map(|run| run.prior().map(|model| model.0)), theirs.map(|run| run.prior))?;
        let reader = row(RunReader::start(flag, form));
        return Ok(ours.ok().zip(reader.ok()).zip(theirs.ok()).map(|((run, reader), theirs)| (run, reader, theirs)));
    }
    let mut prior = std::array::from_fn(|_| inputs::prior(&mut case.random, &oracle::IDENTITY));
    if case.random.one_in(4) {
        let (reference, slot) = (case.random.below(7), case.random.below(6));
        prior[reference][slot] = number(&mut case.random);
    }
    case.note("prior", prior);
    let models = prior.map(StoredModel);
    let runs = (Run::of_parts(models, flag, form), RunReader::of_parts(models, flag, form));
    Ok(Some((runs.0, runs.1, run::Run { prior, flag, form })))
}

fn switch(case: &mut Case, ours: &mut Run, reader: &mut RunReader, theirs: &mut run::Run) -> Result<(), String> {
    let code = case.random.pick(&[0, 1, 0, 1, 2, 3, 255]);
    case.note("switch", code);
    let switched = row(ours.switch(code));
    same("switch", switched, theirs.switch(code))?;
    if switched.is_ok() {
        same("switch of the reader", row(reader.switch(code)), Ok(()))?;
    }
    Ok(())
}

/// Models on the grid of the flag, those of the frame before, or identities, at times with a fault.
fn frame(
    case: &mut Case,
    ours: &mut Run,
    reader: &mut RunReader,
    theirs: &mut run::Run,
    last: &mut ([u8; 7], Models),
) -> Result<(), String> {
    let random = &mut case.random;
    let kind = if random.one_in(5) { FrameKind::Key } else { FrameKind::Inter };
    let key = kind == FrameKind::Key;
    let (types, models) = match (key && !random.one_in(8), random.below(6)) {
        (true, _) | (_, 0) => ([0; 7], [oracle::IDENTITY; 7]),
        (_, 1) => *last,
        _ => {
            let types: [u8; 7] = std::array::from_fn(|_| random.below(4) as u8);
            (types, types.map(|kind| stored_model(random, kind, theirs.flag == 1)))
        }
    };
    let (mut types, mut models) = (types.to_vec(), models.to_vec());
    let mut start = start(random);
    let mut room = belt::HEADER_BYTES + random.below(8);
    match random.below(30) {
        0 => types.truncate(random.below(7)),
        1 => models.truncate(random.below(7)),
        2 => types[random.below(7)] = random.bits() as u8,
        3 => start = random.pick(&[8, 9, usize::MAX]),
        4 => models[random.below(7)][random.below(6)] = number(random),
        5..=7 => room = random.below(40),
        _ => *last = (std::array::from_fn(|i| types[i]), std::array::from_fn(|i| models[i])),
    }
    let before = random.bytes(room);
    case.note("kind, start, room", (kind, start, room));
    case.note("types, models", (&types, &models));
    let (mut after, mut left) = (before.clone(), before);
    let stored: Vec<StoredModel> = models.iter().map(|&model| StoredModel(model)).collect();
    let written = row(ours.frame(kind, &types, &stored, start, &mut after));
    same("bits", written, theirs.frame(key, &types, &models.concat(), start, &mut left))?;
    same_list("bytes", &after, &left)?;
    if let Ok(bits) = written {
        let read = row(reader.read(kind, &after, start));
        let read = read.map(|read| (read.types.to_vec(), read.models.to_vec(), read.bits));
        same("models recovered", read, Ok((types, stored, bits)))?;
    }
    Ok(())
}

/// Any bytes by a reader that goes no further.
fn read_beside(case: &mut Case, reader: &RunReader, mut theirs: run::Run) -> Result<(), String> {
    let random = &mut case.random;
    let kind = if random.one_in(3) { FrameKind::Key } else { FrameKind::Inter };
    let length = random.pick(&[0, 1, 9, 40, 140]);
    let (bytes, at) = (random.bytes(length), random.below(20));
    case.note("read", (kind, &bytes, at));
    let mut beside = *reader;
    let read = row(beside.read(kind, &bytes, at));
    let read = read.map(|read| (read.types, read.models.map(|model| model.0), read.bits));
    same("types, models and bits", read, theirs.read(kind == FrameKind::Key, &bytes, at))?;
    same("prior of the reader", beside.prior().map(|model| model.0), theirs.prior)
}

fn store(case: &mut Case, ours: &Run, theirs: &run::Run) -> Result<(), String> {
    let random = &mut case.random;
    let mut words = inputs::rising_words(random);
    let mut classes = classes_of(random, words.len());
    let number = frame_number(random);
    if random.one_in(8) && !words.is_empty() {
        let place = random.below(words.len());
        match random.below(4) {
            0 => words[place] |= 1 + random.below(3) as u32,
            1 => words[place] = random.bits() as u32,
            2 => classes[place] = random.bits() as u8,
            _ => classes.truncate(place),
        }
    }
    let needed = BLOCK * theirs.form_held().blocks_of(words.len());
    let room = if random.one_in(8) { random.below(needed + 1) } else { needed + random.below(700) };
    let before = random.bytes(room);
    case.note("store: frame, room", (number, room));
    case.note("words", &words);
    case.note("classes", &classes);
    let (mut after, mut left) = (before.clone(), before);
    same(
        "blocks stored",
        row(ours.store(number, &words, &classes, &mut after)),
        theirs.store(number, &words, &classes, &mut left),
    )?;
    same_list("bytes stored", &after, &left)
}

/// A class for each word, at times none of film, so that form 1 can hold them.
fn classes_of(random: &mut Random, count: usize) -> Vec<u8> {
    if random.one_in(2) { vec![random.below(4) as u8; count] } else { inputs::classes(random, count) }
}

/// A frame's words and classes, some of them not to be stored; its blocks, some damaged, read back, converted, judged and
/// listed.
fn stored_frame(case: &mut Case) -> Result<(), String> {
    let random = &mut case.random;
    let mut words = inputs::rising_words(random);
    let mut classes = classes_of(random, words.len());
    let frame = frame_number(random);
    if random.one_in(6) && words.len() > 1 {
        let (i, j) = (random.below(words.len()), random.below(words.len()));
        match random.below(5) {
            0 => words.swap(i, j),
            1 => words[i] = words[j],
            2 => words[i] |= 1 + random.below(3) as u32,
            3 => classes[i] = random.bits() as u8,
            _ => words[i] = random.bits() as u32,
        }
    }
    if random.one_in(40) {
        words.resize(inputs::MOST_SAMPLES + 1, inputs::STILL);
    }
    if random.one_in(40) {
        classes.resize(random.below(words.len() + 2), 0);
    }
    let needed = BLOCK * TWO.blocks_of(words.len());
    let room = if random.one_in(8) { random.below(needed + 1) } else { needed + random.below(700) };
    let before = random.bytes(room);
    case.note("frame", frame);
    case.note("words", &words);
    case.note("classes", &classes);
    case.note("room", room);
    let mut after = before.clone();
    let ours = row(belt::write_frame(frame, &words, &classes, &mut after));
    case.accepted = ours.is_ok();
    let refusal = blocks::store_refusal(frame, &words, &classes, room);
    if refusal != 0 {
        same("blocks", ours, Err(refusal))?;
        return same_list("bytes", &after, &before);
    }
    same("blocks", ours, Ok(needed / BLOCK))?;
    let stored = blocks::write(TWO, frame, &blocks::classed(&words, &classes));
    same_list("bytes", &after, &[&stored, &before[needed..]].concat())?;
    frame_read(case, after)
}

/// A frame's blocks of form 1, some damaged, read, converted, judged and listed.
fn old_frame(case: &mut Case) -> Result<(), String> {
    let random = &mut case.random;
    let words = inputs::rising_words(random);
    let classes: Vec<u8> = words.iter().map(|_| random.below(4) as u8).collect();
    let frame = frame_number(random);
    let mut bytes = blocks::write(ONE, frame, &blocks::classed(&words, &classes));
    // some frames go over to the other form in the middle
    if random.one_in(10) {
        let others = blocks::write(TWO, frame, &blocks::classed(&words, &classes));
        let from = BLOCK * random.below(bytes.len() / BLOCK + 1);
        bytes.splice(from.., others[from..].iter().copied());
    }
    let behind = random.below(700);
    bytes.extend(random.bytes(behind));
    case.note("frame", frame);
    frame_read(case, bytes)
}

/// Some bytes flipped, most of them with the check mended, or the end cut off.
fn damage(random: &mut Random, bytes: &mut Vec<u8>) {
    if random.one_in(3) && !bytes.is_empty() {
        for _ in 0..1 + random.below(2) {
            let whole = BLOCK * (bytes.len() / BLOCK).max(1);
            let at = random.below(whole.min(bytes.len()));
            // the heads and the first samples of blocks more often than the rest
            let at = if random.one_in(2) { at } else { at / BLOCK * BLOCK + random.below(20).min(bytes.len() - 1) };
            let at = at.min(bytes.len() - 1);
            bytes[at] ^= 1 << random.below(8);
            if random.one_in(2) && at / BLOCK * BLOCK + BLOCK <= bytes.len() {
                blocks::mend(bytes, at);
            }
        }
    }
    if random.one_in(10) {
        bytes.truncate(random.below(bytes.len() + 1));
    }
}

fn frame_read(case: &mut Case, mut bytes: Vec<u8>) -> Result<(), String> {
    let random = &mut case.random;
    damage(random, &mut bytes);
    let room = |random: &mut Random| match random.one_in(5) {
        true => random.pick(&[0, 1, 100, 101, 125, 126, 300]),
        false => 4096 + random.below(5),
    };
    let (room, class_room) = (room(random), room(random));
    case.note("room for words and classes", (room, class_room));
    case.note("bytes to read", &bytes);

    let (mut words, mut classes) = (vec![0xA5A5_5A5A; room], vec![0x5A; class_room]);
    let (mut words_left, mut classes_left) = (words.clone(), classes.clone());
    let ours = row(belt::read_both(&bytes, &mut words, &mut classes));
    case.accepted = ours.is_ok();
    let theirs = blocks::read_both(&bytes, room, class_room).map(|(number, samples)| {
        for (i, &(word, class)) in samples.iter().enumerate() {
            (words_left[i], classes_left[i]) = (word, class);
        }
        Frame { number, samples: samples.len() }
    });
    same("frame, by the reader of both forms", ours, theirs)?;
    same_list("words", &words, &words_left)?;
    same_list("classes", &classes, &classes_left)?;

    let mut words = vec![0xA5A5_5A5Au32; room];
    let mut left = words.clone();
    let ours = row(belt::read_frame(&bytes, &mut words));
    let theirs = blocks::read_form1(&bytes, room).map(|(number, read)| {
        left[..read.len()].copy_from_slice(&read);
        Frame { number, samples: read.len() }
    });
    same("frame, by the reader of form 1", ours, theirs)?;
    same_list("words with classes", &words, &left)?;

    conversion(case, &bytes, TWO, ONE, belt::to_form1)?;
    conversion(case, &bytes, ONE, TWO, belt::to_form2)?;
    for block in bytes.chunks(BLOCK) {
        let ours = row(belt::judge_block(block)).map(|block| block.count);
        let theirs = blocks::judge_alone(block).map(|samples| samples.len());
        same("count of a block", ours, theirs)?;
        let mut text = [0xA5; belt::TEXT_BYTES];
        same("text of a block", belt::list_block(block, &mut text).to_owned(), blocks::text(block))?;
    }
    Ok(())
}

type Convert = fn(&[u8], &mut [u8]) -> Result<usize, Refusal>;

fn conversion(case: &mut Case, bytes: &[u8], from: Form, to: Form, convert: Convert) -> Result<(), String> {
    let room = match case.random.one_in(5) {
        true => case.random.pick(&[0, 511, 512, 1023, 1024]),
        false => BLOCK * to.blocks_of(inputs::MOST_SAMPLES),
    };
    let mut after = vec![0x3C; room];
    let mut left = after.clone();
    let ours = row(convert(bytes, &mut after));
    let theirs = blocks::convert(from, to, bytes, room).map(|blocks| {
        left[..blocks.len()].copy_from_slice(&blocks);
        blocks.len() / BLOCK
    });
    same(&format!("blocks from form {} to {} in {room} bytes", from.number, to.number), ours, theirs)?;
    same_list("bytes converted", &after, &left)
}

/// A codable model of a type that warps, against the stand-in, which is a writing of the clause.
fn shear(case: &mut Case) -> Result<(), String> {
    let random = &mut case.random;
    let (kind, high) = (2 + random.below(2) as u8, random.one_in(2));
    let model = stored_model(random, kind, high);
    case.note("type, model", (kind, model));
    let ours =
        belt::setup_shear(kind, &model).map(|shear| (shear.valid, [shear.alpha, shear.beta, shear.gamma, shear.delta]));
    same("shear", ours.ok(), oracle::shear(&model))
}

/// Roots of numbers of every kind, against the processor's.
fn roots(case: &mut Case) -> Result<(), String> {
    for _ in 0..200 {
        let x = inputs::radicand(&mut case.random);
        same(&format!("root of {x:?}, bits {:016X}", x.to_bits()), bits(belt::root(x)), bits(x.sqrt()))?;
    }
    Ok(())
}

/// A practice belt in guarded buffers, against a writing of the rule.
fn practice(case: &mut Case) -> Result<(), String> {
    let random = &mut case.random;
    let seed = random.below(1 << 32) as u32;
    let (width, height) = (random.pick(&SIDES), random.pick(&SIDES));
    let (width, height) = if random.one_in(2) { (width, height) } else { (random.below(70), random.below(70)) };
    let mut component = || random.below(51) as i32 - 25;
    let (dy, dx) = (component(), component());
    let mut room =
        || if random.one_in(8) { random.below(width * height + 1) } else { width * height + random.below(9) };
    let (input_room, reference_room) = (room(), room());
    case.note("seed, width, height, dy, dx", (seed, width, height, dy, dx));
    case.note("room", (input_room, reference_room));
    let (mut input, mut reference) = (vec![0xA55A; input_room], vec![0x5AA5; reference_room]);
    let (mut wanted_input, mut wanted_reference) = (input.clone(), reference.clone());
    let ours = row(belt::make_practice_planes(seed, width, height, dy, dx, &mut input, &mut reference));
    case.accepted = ours.is_ok();
    let theirs = match practice::refusal(width, height, dy, dx, input_room, reference_room) {
        0 => {
            let (moved, noise) = practice::planes(seed, width, height, dy, dx);
            wanted_input[..moved.len()].copy_from_slice(&moved);
            wanted_reference[..noise.len()].copy_from_slice(&noise);
            Ok(noise.len())
        }
        refusal => Err(refusal),
    };
    same("pels", ours, theirs)?;
    same_list("input", &input, &wanted_input)?;
    same_list("reference", &reference, &wanted_reference)
}
