//! belt measure: pictures in, motion out.

use super::flag_and_prior;
use crate::cli::Measure;
use crate::failure::Failure;
use crate::lists;
use crate::measure::{Job, Measured, judged, measure};
use crate::model::Asked;
use crate::output::{self, Files};
use crate::picture;
use crate::report::{json, words};
use belt::ClassSet;
use frames::{Frame, Part};
use std::path::{Path, PathBuf};

pub fn run(words: &Measure) -> Result<(), Failure> {
    let places = places(words)?;
    let series = places.len() > 2;
    single(words, series)?;
    let kinds = words.picture.iter().map(|path| picture::Kind::of(path)).collect::<Result<Vec<_>, _>>()?;
    let mut files = judge(words, &places)?;
    let part = words.seen.part();
    let mut job = job(words)?;

    let mut input: Option<Frame> = None;
    let (mut pairs, mut warned) = (0, 0);
    let mut blocks = Vec::new();
    for pair in places.windows(2) {
        let (before, reference) = frames(&pair[0], input.take(), &pair[1], part)?;
        let measured = measure(&job, &before, &reference)?;
        pairs += 1;
        warned += usize::from(!measured.warnings.is_empty() || !measured.answer.status.is_known());
        if words.blocks.is_some() {
            blocks.extend(&measured.sample_blocks);
        }
        if !series {
            store(words, &kinds, &measured, &before, &mut files)?;
        }
        files.say(&text(words.json, series, &measured))?;
        if output::is_closed() && words.blocks.is_none() && series {
            return Ok(());
        }
        if pairs + 1 < places.len() {
            job.frame = next(job.frame)?;
        }
        input = Some(reference);
    }
    if series && !words.json {
        let with = words::count(warned);
        files.say(&format!("{}, {with} with a warning or without an answer\n", words::many(pairs, "pair")))?;
    }
    if let Some(path) = &words.blocks {
        files.add(path, &blocks)?;
    }
    files.keep()
}

/// Inputs and outputs, before anything is read.
fn judge(words: &Measure, places: &[PathBuf]) -> Result<Files, Failure> {
    let pictures = places.iter().map(|place| frames::named(place).0);
    let lists = [&words.header.prior, &words.classes, &words.seen.mask].into_iter().flatten().map(PathBuf::as_path);
    let stores = [&words.blocks, &words.header_file, &words.models].into_iter().flatten();
    super::judge(pictures.chain(lists), words.picture.iter().chain(stores).map(PathBuf::as_path))
}

fn job(words: &Measure) -> Result<Job, Failure> {
    let (flag, prior) = flag_and_prior(&words.header)?;
    Ok(Job {
        asked: Asked::of(words.gm_type, words.trim),
        frame: words.frame,
        reference: words.reference,
        flag,
        start: words.start,
        prior,
        classes: words.classes.as_deref().map(lists::classes).transpose()?,
        set: words.set.as_deref().map_or(Ok(ClassSet::ALL), lists::class_set)?,
        mask: super::mask(&words.seen)?,
        within: words.within,
        fast: words.seen.fast,
        threads: super::threads(words.threads),
    })
}

fn places(words: &Measure) -> Result<Vec<PathBuf>, Failure> {
    let mut places = Vec::new();
    for place in &words.places {
        places.extend(frames::places(place)?);
    }
    if places.len() < 2 {
        let what = format!(
            "it takes two pictures or more, not {}; 'belt track' measures a clip, clip.y4m#0 is a frame",
            places.len()
        );
        return Err(Failure::bad("measure", what));
    }
    Ok(places)
}

/// Of more than one pair only the blocks are stored: they carry their frame's number.
fn single(words: &Measure, series: bool) -> Result<(), Failure> {
    let given = [
        ("--picture", !words.picture.is_empty()),
        ("--header", words.header_file.is_some()),
        ("--models", words.models.is_some()),
    ];
    match given.into_iter().find(|(_, given)| series && *given) {
        Some((name, _)) => Err(Failure::bad(name, "for two pictures alone, not for more")),
        None => Ok(()),
    }
}

fn next(frame: u16) -> Result<u16, Failure> {
    frame.checked_add(1).ok_or_else(|| Failure::bad("--frame", "the frames' numbers go beyond 65535"))
}

/// The two pictures of a pair. The first may have been read for the pair before. Sides are judged before pels are read.
fn frames(place: &Path, before: Option<Frame>, next: &Path, part: Part) -> Result<(Frame, Frame), Failure> {
    let input = match before {
        Some(frame) => Ok(frame),
        None => Err(frames::open(place)?),
    };
    let reference = frames::open(next)?;
    let input = match input {
        Ok(frame) => {
            frames::alike(frame.looks(), reference.looks())?;
            frame
        }
        Err(opened) => {
            frames::alike(opened.looks(), reference.looks())?;
            judged(&opened.name, part, opened.sides())?;
            opened.read(part)?
        }
    };
    Ok((input, reference.read(part)?))
}

fn text(json: bool, series: bool, measured: &Measured) -> String {
    match (json, series) {
        (true, _) => json::pair(measured),
        (false, true) => words::line(measured, None),
        (false, false) => words::pair(measured),
    }
}

/// Everything that is stored of one pair but its blocks.
fn store(
    words: &Measure,
    kinds: &[picture::Kind],
    measured: &Measured,
    input: &Frame,
    files: &mut Files,
) -> Result<(), Failure> {
    for (path, kind) in words.picture.iter().zip(kinds) {
        files.add(path, &picture::draw(kind, measured, input))?;
    }
    if let Some(path) = &words.header_file {
        files.add(path, &measured.header)?;
    }
    if let Some(path) = &words.models {
        files.add(path, lists::models_text(&measured.report.types, &measured.report.models).as_bytes())?;
    }
    Ok(())
}
