//! A job on two pictures: what is stored, what was measured (by `track`), and what each block has to do with it.
//!
//! One search serves both: the job runs on pictures without their light, and its samples are what `track` goes by. Where
//! a type is named the samples are of the pictures as they are, and that type is fitted to them.

use crate::failure::Failure;
use crate::model::{self, Asked, IDENTITY};
use crate::report::words;
use belt::{Buffers, ClassSet, IDENTITIES, Motion, Refusal, Report, Sample, Settings, StoredModel, Task};
use frames::{Frame, Part};
use serde::Serialize;
use track::{Answer, Common, How, Model, Named, Options, Planes, Refused, Status};

/// The share of blocks that stand still, or don't, from which on they are a part of the picture.
const PART: f64 = 0.05;
/// So many blocks, and this share of them, move together if they move alike.
const TOGETHER: f64 = 4.0;
const TOGETHER_SHARE: f64 = 0.02;
/// From this many pels on a part surely moves.
const MOVES: f64 = 0.5;

/// A picture of fewer blocks than this can't have as many that agree as `track` asks for.
const LARGE: usize = 24;

/// What to know of an answer.
#[derive(Clone, Debug, PartialEq, Eq, Serialize)]
pub struct Warning {
    /// For programs.
    pub name: &'static str,
    /// What is the matter, and what to do.
    pub text: String,
}

/// What a job is told beside its pictures.
#[derive(Clone, Debug)]
pub struct Job {
    pub asked: Asked,
    pub frame: u16,
    pub reference: u8,
    pub flag: u8,
    pub start: usize,
    pub prior: [StoredModel; 7],
    /// A class for each block; unsorted where none are given.
    pub classes: Option<Vec<u8>>,
    /// The classes whose blocks are measured, fitted and scored.
    pub set: ClassSet,
    /// What isn't black in it is left out of what is measured.
    pub mask: Option<Frame>,
    /// A block agrees with a named type within so many pels.
    pub within: f64,
    /// Neither the way back nor coarser planes.
    pub fast: bool,
    /// How many threads share a pair's searches.
    pub threads: usize,
}

impl Job {
    /// The job that elects and stores for the first reference, as the first of a run.
    pub fn electing(mask: Option<Frame>, fast: bool) -> Job {
        Job {
            asked: Asked::Elected,
            frame: 1,
            reference: 1,
            flag: 1,
            start: 0,
            prior: IDENTITIES,
            classes: None,
            set: ClassSet::ALL,
            mask,
            within: 0.25,
            fast,
            threads: 1,
        }
    }
}

/// A block of the picture: what was found, and how far the answer's model is from it.
#[derive(Clone, Copy, Debug)]
pub struct Block {
    pub x: f64,
    pub y: f64,
    pub motion: Motion,
    /// The distance between its motion and the model's, in pels.
    pub off: f64,
    /// Under the mask, or of a class that isn't named.
    pub masked: bool,
}

/// What was measured.
#[derive(Clone, Debug)]
pub struct Measured {
    pub input: String,
    pub reference: String,
    /// The sides of what was measured, and how many pels of the picture, across and down, are one of it.
    pub width: usize,
    pub height: usize,
    pub times: usize,
    pub settings: Settings,
    pub asked: Asked,
    pub answer: Answer,
    /// The type and model stored, x first.
    pub stored_type: u8,
    pub stored: belt::Model,
    pub report: Report,
    pub blocks: Vec<Block>,
    pub warnings: Vec<Warning>,
    /// The samples' words, and the blocks that they are stored in.
    pub samples: Vec<u32>,
    pub sample_blocks: Vec<u8>,
    /// The header's bytes, from the start's byte on.
    pub header: Vec<u8>,
}

/// Whether the library takes pictures of these sides; no pel need be there.
pub fn judge_sides(width: usize, height: usize) -> Result<(), Refusal> {
    match belt::collect_motion_samples(&[], &[], width, height, &[], &mut [], &mut [], &mut []) {
        Err(Refusal::TooLarge) => Err(Refusal::TooLarge),
        _ => Ok(()),
    }
}

/// Whether a part of a picture of these sides can be measured.
pub fn judged(name: &str, part: Part, sides: (usize, usize)) -> Result<(), Failure> {
    part.inside(sides).map_err(|what| Failure::bad(name, what))?;
    let (width, height) = part.sides(sides);
    judge_sides(width, height).map_err(|refusal| {
        let advice = format!("{width}×{height} pels are too many: --crop X,Y,W,H measures a part, --halve all");
        Failure::refused(name, refusal).with_advice(advice)
    })
}

/// A picture as `track` takes it.
pub fn lent(frame: &Frame) -> track::Frame<'_> {
    track::Frame { pels: &frame.pels, width: frame.width, height: frame.height, most: frame.most }
}

/// Runs the job on two pictures of the same sides.
pub fn measure(job: &Job, input: &Frame, reference: &Frame) -> Result<Measured, Failure> {
    let planes = Planes::of(&lent(input), &lent(reference));
    measure_planes(job, input, reference, planes)
}

/// The same where their light was taken away already.
pub fn measure_planes(
    job: &Job,
    input: &Frame,
    reference: &Frame,
    planes: Result<Planes, Refused>,
) -> Result<Measured, Failure> {
    let (width, height) = (input.width, input.height);
    let settings = job.asked.settings(job.frame, job.reference, job.flag, job.start).set(job.set);
    let unsorted = vec![belt::UNSORTED; belt::sample_count(width, height)];
    let mut buffers = Buffers::new(width, height);
    if let Some(Frame { name, whole: (own_width, own_height), .. }) =
        job.mask.as_ref().filter(|mask| mask.whole != input.whole)
    {
        let (width, height) = input.whole;
        let what = format!("the mask has {own_width}×{own_height} pels, and {} {width}×{height}", input.name);
        return Err(Failure::bad(name, what));
    }
    let pair = format!("{} to {}", input.name, reference.name);
    let refused = |refused| match refused {
        Refused::Library(refusal) => Failure::refused(&pair, refusal),
        other => Failure::bad(&pair, other),
    };
    let planes = planes.map_err(refused)?.shared_by(job.threads);
    // whoever names a type has the library's own fit of it
    let searched = match job.asked {
        Asked::Elected => [planes.first(), planes.second()],
        _ => [&input.pels[..], &reference.pels],
    };
    let task = Task {
        input: searched[0],
        reference: searched[1],
        width,
        height,
        settings,
        classes: job.classes.as_ref().unwrap_or(&unsorted),
        types: &[0; 6],
        models: &IDENTITIES[..6],
        prior: &job.prior,
    };
    let report = belt::job_parallel(&task, &mut buffers.lend(), job.threads);
    let report = report.map_err(|refusal| Failure::refused(&pair, refusal))?;
    let place = usize::from(job.reference) - 1;
    let stored_type = report.types[place];
    buffers.header.truncate((settings.start + report.bits).div_ceil(8));
    let stored = &buffers.words[..report.samples];
    let masked = |word: u32| job.mask.as_ref().is_some_and(|mask| is_masked(mask, word));
    let left_out = |(&word, &class): (&u32, &u8)| !job.set.names(class) || masked(word);
    let some = job.mask.is_some() || job.set != ClassSet::ALL;
    let mask: Option<Vec<bool>> = some.then(|| stored.iter().zip(task.classes).map(left_out).collect());
    let named = |gm_type: u8, is_trimmed: bool| {
        planes.named(&Named { gm_type, is_trimmed, within: job.within }, stored, mask.as_deref())
    };
    let answer = match job.asked {
        Asked::Elected => planes.measure(Some(stored), &Options { fast: job.fast, mask: mask.as_deref() }),
        Asked::Plain(gm_type) => named(gm_type, false),
        Asked::Trimmed(gm_type) => named(gm_type, true),
    };
    let answer = answer.map_err(refused)?;
    let block = |(at, &word): (usize, &u32)| {
        let Sample { x, y, motion, .. } = Sample::of_word(word);
        let own = answer.model.motion_at(x, y);
        let off = (motion.u - own.u).hypot(motion.v - own.v);
        Block { x, y, motion, off, masked: mask.as_ref().is_some_and(|mask| mask[at]) }
    };
    let blocks = stored.iter().enumerate().map(block).collect();
    let mut measured = Measured {
        input: input.name.clone(),
        reference: reference.name.clone(),
        width,
        height,
        times: input.times,
        settings,
        asked: job.asked,
        answer,
        stored_type,
        stored: report.models[place].x_first(stored_type),
        report,
        blocks,
        warnings: Vec::new(),
        samples: buffers.words,
        sample_blocks: buffers.blocks,
        header: buffers.header,
    };
    measured.warnings = warnings(&measured);
    Ok(measured)
}

/// Whether a pel of the mask under a block isn't black.
fn is_masked(mask: &Frame, word: u32) -> bool {
    let Sample { row, column, .. } = Sample::of_word(word);
    let (top, left) = (16 * row as usize, 16 * column as usize);
    (top..top + 16).any(|y| mask.pels[y * mask.width + left..][..16].iter().any(|&pel| pel > 0))
}

/// Those of the answer, and what parts of the picture and a decoder do.
fn warnings(measured: &Measured) -> Vec<Warning> {
    let kept = measured.stored_type < 2
        || belt::setup_shear(measured.stored_type, &measured.stored.row_first(measured.stored_type).0)
            .is_ok_and(|shear| shear.valid);
    let unkept = || Warning {
        name: "warp-not-kept",
        text: "a decoder won't keep the stored warp: its shear is too strong".into(),
    };
    let answered = !matches!(measured.answer.status, Status::Flat | Status::NoBlocks);
    let unkept = (answered && !kept).then(unkept);
    let own = measured.answer.warnings.iter().map(|warning| told(*warning, &measured.answer));
    own.chain(part(measured)).chain(unkept).collect()
}

/// A warning of the answer, with what else helps here.
fn told(warning: track::Warning, answer: &Answer) -> Warning {
    let text = match (warning, answer.how) {
        (track::Warning::FewAgree, How::Plain | How::Trimmed) => {
            let share = words::per_cent(answer.agree as f64 / answer.usable.max(1) as f64);
            let model = model::words(answer.model.gm_type);
            format!(
                "only {share} of the blocks agree with {model}: it moved otherwise, or not as one piece, or further than \
                 the search looks, 27 pels; without --type the model is found too, and --crop or --mask leave a part out"
            )
        }
        (track::Warning::FewBlocks, _) if answer.blocks < LARGE => {
            format!("{}; --type fits a model to fewer", warning.advice())
        }
        _ => warning.advice().into(),
    };
    Warning { name: warning.name(), text }
}

/// What is to be known of a part that moves otherwise.
fn part(measured: &Measured) -> Option<Warning> {
    let Answer { status, usable, shares, standing, .. } = &measured.answer;
    let (still, rest) = (shares.still, words::rest(measured));
    let together = |share: f64| share >= TOGETHER_SHARE && share * *usable as f64 >= TOGETHER;
    let moves = 1.0 - still >= PART
        && shares.commonest.is_some_and(|Common { motion, share }| together(share) && moves(motion));
    let part_still = |share: f64| {
        let share = words::per_cent(share);
        let text = format!(
            "a part stands still, {share} of the blocks that can tell their motion: cut it off with --crop, or leave it out \
             with --mask; {rest}"
        );
        Some(Warning { name: "part-still", text })
    };
    match status {
        Status::Still if moves => Some(Warning {
            name: "part-moves",
            text: format!("a part moved on its own: {rest}; --crop measures it alone"),
        }),
        Status::Measured if moves && *standing >= PART => part_still(*standing),
        Status::Unexplained if moves && still >= PART => part_still(still),
        _ => None,
    }
}

/// Whether a motion is surely one.
fn moves(motion: Motion) -> bool {
    motion.u.hypot(motion.v) > MOVES
}

impl Measured {
    /// The blocks that aren't left out.
    pub fn used(&self) -> impl Iterator<Item = &Block> {
        self.blocks.iter().filter(|block| !block.masked)
    }

    /// The share of the blocks that can tell their motion which agree, 0 to 1; 0 without any.
    pub fn share(&self) -> f64 {
        self.answer.agree as f64 / self.answer.usable.max(1) as f64
    }

    /// The commonest motion of the blocks that don't stand still, in pels of the picture.
    pub fn commonest(&self) -> Option<Common> {
        let times = self.times as f64;
        let larger = |Motion { u, v }| Motion { u: u * times, v: v * times };
        self.answer.shares.commonest.map(|common| Common { motion: larger(common.motion), ..common })
    }

    /// The error to be expected, in pels of the picture.
    pub fn predicted(&self) -> Option<f64> {
        let Answer { predicted, status, .. } = self.answer;
        (predicted.is_finite() && status.is_known()).then_some(predicted * self.times as f64)
    }

    /// The mean square of how far the blocks that agree are off, in square pels of the picture.
    pub fn score(&self) -> f64 {
        self.answer.score * (self.times * self.times) as f64
    }

    /// The model that was measured, in pels of the picture.
    pub fn model(&self) -> Model {
        (0..self.times.trailing_zeros()).fold(self.answer.model, |model, _| model.doubled())
    }

    /// What was measured, in the middle of the picture.
    pub fn middle(&self) -> Motion {
        self.model().middle(self.width * self.times, self.height * self.times)
    }

    /// What is stored, in pels of what was measured.
    pub fn stored_model(&self) -> Model {
        model::of_grid(self.stored_type, self.stored)
    }

    /// What is stored, in the middle of what was measured.
    pub fn stored_middle(&self) -> Motion {
        self.stored_model().middle(self.width, self.height)
    }

    pub fn is_stored_still(&self) -> bool {
        self.stored_type == IDENTITY
    }
}

#[cfg(test)]
pub mod tests {
    use super::*;

    /// Texture by place alone.
    fn texture(y: i64, x: i64) -> u16 {
        let mut h = (y as u64).wrapping_mul(0x9E37_79B9_7F4A_7C15) ^ (x as u64).wrapping_mul(0xC2B2_AE3D_27D4_EB4F);
        h = (h ^ h >> 29).wrapping_mul(0xBF58_476D_1CE4_E5B9);
        (h >> 40) as u16 & 255
    }

    /// A frame that shows the texture from a place on.
    pub fn frame(name: &str, width: usize, height: usize, dy: i64, dx: i64) -> Frame {
        let pel = |i: usize| texture((i / width) as i64 + dy, (i % width) as i64 + dx);
        let pels = (0..width * height).map(pel).collect();
        Frame { name: name.into(), width, height, whole: (width, height), times: 1, most: 255, pels }
    }

    /// A frame of which every pel with a quality shows the texture from another place on.
    fn parted(moved: (i64, i64), rest: (i64, i64), own: impl Fn(usize, usize) -> bool) -> Frame {
        let (inside, outside) = (frame("a", 160, 160, moved.0, moved.1), frame("a", 160, 160, rest.0, rest.1));
        let pel = |i: usize| if own(i % 160, i / 160) { inside.pels[i] } else { outside.pels[i] };
        Frame { pels: (0..160 * 160).map(pel).collect(), ..outside.clone() }
    }

    /// A job that fits a type, or elects one for the identity.
    pub fn job(kind: u8) -> Job {
        let asked = if kind == IDENTITY { Asked::Elected } else { Asked::Plain(kind) };
        Job { asked, ..Job::electing(None, false) }
    }

    fn names(found: &Measured) -> Vec<&str> {
        found.warnings.iter().map(|warning| warning.name).collect()
    }

    fn is_near(found: Motion, u: f64, v: f64) -> bool {
        (found.u - u).hypot(found.v - v) < 0.03
    }

    #[test]
    fn a_pan_is_measured_and_most_blocks_agree() {
        for kind in [IDENTITY, 1] {
            let found = measure(&job(kind), &frame("a", 160, 160, 2, -4), &frame("b", 160, 160, 0, 0)).unwrap();
            assert!(found.answer.status == Status::Measured && is_near(found.middle(), -4.0, 2.0), "{found:?}");
            assert_eq!((found.stored_type, found.blocks.len(), found.sample_blocks.len()), (1, 100, 512));
            assert!(found.answer.agree >= 80 && found.warnings.is_empty(), "{found:?}");
        }
    }

    #[test]
    fn threads_that_share_a_pair_have_its_answer() {
        for kind in [IDENTITY, 1, 3] {
            // the second goes the way back and to coarser planes
            for (dy, dx) in [(2, -4), (31, 37)] {
                let (a, b) = (frame("a", 208, 176, dy, dx), frame("b", 208, 176, 0, 0));
                let told = |threads| format!("{:?}", measure(&Job { threads, ..job(kind) }, &a, &b).unwrap());
                let alone = told(1);
                assert!((2..5).all(|threads| told(threads) == alone), "type {kind}, {dy} and {dx}");
            }
        }
        let refused = |threads| {
            measure(&Job { frame: 0, threads, ..job(1) }, &frame("a", 32, 32, 0, 0), &frame("b", 32, 32, 0, 0))
        };
        assert_eq!(refused(2).unwrap_err().to_string(), refused(1).unwrap_err().to_string());
    }

    #[test]
    fn each_status_is_told_where_it_belongs() {
        let still = frame("a", 160, 160, 0, 0);
        let status = |a: &Frame, b: &Frame| measure(&job(IDENTITY), a, b).unwrap().answer.status;
        assert_eq!(status(&still, &still), Status::Still);
        let flat = Frame { pels: vec![9; 160 * 160], ..still.clone() };
        assert_eq!([status(&flat, &flat), status(&flat, &still)], [Status::Flat; 2]);
        let small = frame("a", 15, 40, 0, 0);
        assert_eq!(status(&small, &small), Status::NoBlocks);
        let halves = |by: i64| parted((0, by), (0, -by), |x, _| x < 80);
        let found = measure(&job(IDENTITY), &halves(8), &halves(0)).unwrap();
        assert!(found.answer.status == Status::Unexplained && names(&found).contains(&"two-motions"), "{found:?}");
        assert!(is_near(found.commonest().unwrap().motion, found.commonest().unwrap().motion.u.signum() * 8.0, 0.0));
        let far = measure(&job(1), &frame("b", 160, 160, 40, 0), &still).unwrap();
        assert_eq!((far.answer.status, names(&far)[0]), (Status::Unexplained, "few-agree"));
        let few = |dx| frame("a", 48, 16, 0, dx);
        let found = measure(&job(IDENTITY), &few(6), &few(0)).unwrap();
        assert!(
            found.warnings[0].name == "few-blocks" && found.warnings[0].text.ends_with("--type fits a model to fewer")
        );
    }

    #[test]
    fn parts_that_move_otherwise_are_told() {
        let piece = |x: usize, y: usize| (32..80).contains(&x) && (32..80).contains(&y);
        let still = parted((0, 0), (0, 0), piece);
        let found = measure(&job(IDENTITY), &parted((0, 6), (0, 0), piece), &still).unwrap();
        assert_eq!((found.answer.status, names(&found)), (Status::Still, vec!["part-moves"]));
        assert!(is_near(found.commonest().unwrap().motion, 6.0, 0.0), "{found:?}");
        let rail = |_, y: usize| y < 16;
        let found = measure(&job(IDENTITY), &parted((0, 0), (4, 6), rail), &still).unwrap();
        assert_eq!((found.answer.status, names(&found)), (Status::Measured, vec!["part-still"]));
        let mask = Frame { pels: (0..160 * 160).map(|i| u16::from(i < 16 * 160)).collect(), ..still.clone() };
        let job = Job { mask: Some(mask), ..job(IDENTITY) };
        let found = measure(&job, &parted((0, 0), (4, 6), rail), &still).unwrap();
        assert_eq!((found.answer.status, names(&found)), (Status::Measured, vec![]));
        assert!(found.used().count() == 90 && is_near(found.middle(), 6.0, 4.0), "{found:?}");
    }

    #[test]
    fn refusals_are_the_librarys() {
        let still = frame("a", 32, 32, 0, 0);
        let said = |job: Job| measure(&job, &still, &still).unwrap_err().to_string();
        assert_eq!(
            said(Job { frame: 0, ..job(1) }),
            "a to a: refused, 17: the frame was taken with the shutter closed: there is nothing to see"
        );
        assert_eq!(
            said(Job { start: 8, ..job(1) }),
            "a to a: refused, 14: a header begins at one of the eight bits of its first byte"
        );
        assert_eq!([judge_sides(1024, 1024), judge_sides(1025, 1)], [Ok(()), Err(Refusal::TooLarge)]);
    }
}
