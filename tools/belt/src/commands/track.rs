//! belt track: a clip in, its motion out pair by pair.

use crate::cli::Track;
use crate::clip::{Chosen, Clip, Turn};
use crate::failure::Failure;
use crate::measure::{Job, measure_planes};
use crate::ordered;
use crate::output::{self, At, Files};
use crate::report::json;
use crate::tracked::plot::Plot;
use crate::tracked::{Pair, Row, Scale, Summary};
use indicatif::{ProgressBar, ProgressStyle};
use record::{Found, Recorder};
use std::io::{self, IsTerminal};
use std::path::{Path, PathBuf};
use std::sync::Arc;
use track::Planes;

pub fn run(words: &Track) -> Result<(), Failure> {
    let places = places(words)?;
    let mut files = judge(words, &places)?;
    let mut told = Told::of(words, &mut files)?;
    let clip = Clip::of(places, words.seen.part(), chosen(words)?);
    let bar = bar(words, clip.frames());
    let pairs = Pairs { clip, before: None, number: 0 };
    let job = Job::electing(super::mask(&words.seen)?, words.seen.fast);
    let (rate, millimetres) = (words.fps, words.mm_per_pel);
    let work = move |two: Result<Two, Failure>| two.and_then(|two| measured(two, &job, rate, millimetres));
    let answers =
        ordered::begin(super::threads(words.threads), pairs, work).map_err(|error| Failure::bad("--threads", error))?;
    for pair in answers {
        bar.inc(1);
        bar.suspend(|| told.pair(&pair?, words, &mut files))?;
        if output::is_closed() && outputs(words).next().is_none() {
            return Ok(());
        }
    }
    bar.finish_and_clear();
    told.end(words, files)
}

fn places(words: &Track) -> Result<Vec<PathBuf>, Failure> {
    let places: Result<Vec<_>, _> = words.places.iter().map(|place| frames::places(place)).collect();
    Ok(places?.concat())
}

/// Inputs and outputs, before anything is read.
fn judge(words: &Track, places: &[PathBuf]) -> Result<Files, Failure> {
    let inputs = places.iter().map(|place| frames::named(place).0).chain(words.seen.mask.as_deref());
    super::judge(inputs, outputs(words))
}

fn outputs(words: &Track) -> impl Iterator<Item = &Path> {
    let files = [&words.csv, &words.plot, &words.blocks, &words.headers];
    files.into_iter().flatten().map(PathBuf::as_path)
}

fn chosen(words: &Track) -> Result<Chosen, Failure> {
    let to = words.to.unwrap_or(u64::MAX);
    if to <= words.from {
        return Err(Failure::bad("--to", format!("it must be more than --from, {}: a pair is two frames", words.from)));
    }
    Ok(Chosen { from: words.from, to, every: words.every })
}

/// How far it is, on standard error, where that is a terminal.
fn bar(words: &Track, frames: Option<u64>) -> ProgressBar {
    if words.quiet || !io::stderr().is_terminal() {
        return ProgressBar::hidden();
    }
    let pairs = frames.map(|frames| frames.saturating_sub(1));
    let (bar, form) = match pairs {
        Some(pairs) => (ProgressBar::new(pairs), "{bar:40} {pos} of {len} pairs, {eta} left"),
        None => (ProgressBar::new_spinner(), "{spinner} {pos} pairs in {elapsed}"),
    };
    bar.with_style(ProgressStyle::with_template(form).expect("a form that is right"))
}

/// Two frames that follow each other.
struct Two {
    number: u64,
    first: Arc<Turn>,
    second: Arc<Turn>,
}

/// The pairs of a clip, each frame of which is read once.
struct Pairs {
    clip: Clip,
    before: Option<Arc<Turn>>,
    number: u64,
}

impl Iterator for Pairs {
    type Item = Result<Two, Failure>;

    fn next(&mut self) -> Option<Self::Item> {
        loop {
            let second = match self.clip.next() {
                Some(Ok(turn)) => Arc::new(turn),
                Some(Err(failure)) => return Some(Err(failure)),
                None => {
                    // of one frame alone it is said what is wrong with it
                    let alone = self.before.take().filter(|_| self.number == 0)?;
                    let reason = alone.frame.as_ref().err()?;
                    return Some(Err(Failure::bad(output::shown(&alone.name), reason)));
                }
            };
            if let Some(first) = self.before.replace(second.clone()) {
                self.number += 1;
                return Some(Ok(Two { number: self.number - 1, first, second }));
            }
        }
    }
}

/// Measures a pair. What is wrong with the first, and not with its frames, is wrong with all.
fn measured(two: Two, job: &Job, rate: Option<f64>, millimetres: Option<f64>) -> Result<Pair, Failure> {
    let Two { number, first, second } = two;
    let found = match (&first.frame, &second.frame) {
        (Ok(before), Ok(after)) => match frames::alike(before.looks(), after.looks()) {
            Ok(()) => {
                let details = first.detail(before).and_then(|one| Ok((one, second.detail(after)?)));
                let planes = details.and_then(|(one, other)| Planes::between(one, other));
                match measure_planes(job, before, after, planes) {
                    Err(failure) if number == 0 => return Err(failure),
                    found => found.map_err(|failure| failure.what()),
                }
            }
            Err(unlike) => Err(format!("{}: {}", second.name, unlike.what)),
        },
        (Err(reason), _) => Err(format!("{}: {reason}", first.name)),
        (_, Err(reason)) => Err(format!("{}: {reason}", second.name)),
    };
    Ok(Pair {
        number,
        first: first.name.clone(),
        second: second.name.clone(),
        frames: (first.number, second.number),
        scale: Scale { rate: rate.or(second.rate), millimetres },
        found,
    })
}

/// What is told of the pairs, and where.
struct Told {
    table: Option<At>,
    recorder: Recorder,
    blocks: Option<At>,
    headers: Option<At>,
    plot: Plot,
    summary: Summary,
    /// Why the first pair that is bad is.
    bad: Option<String>,
}

impl Told {
    fn of(words: &Track, files: &mut Files) -> Result<Told, Failure> {
        let mut created = |path: &Option<PathBuf>| path.as_deref().map(|path| files.create(path)).transpose();
        let [table, blocks, headers] = [created(&words.csv)?, created(&words.blocks)?, created(&words.headers)?];
        let recorder = Recorder::begin(words.key).map_err(|refusal| Failure::refused("--headers", refusal))?;
        if let Some(headers) = headers {
            files.append(headers, &recorder.head())?;
        }
        Ok(Told { table, recorder, blocks, headers, plot: Plot::new(), summary: Summary::default(), bad: None })
    }

    fn pair(&mut self, pair: &Pair, words: &Track, files: &mut Files) -> Result<(), Failure> {
        let row = Row::of(pair);
        if let Some(table) = self.table {
            let unmade = |error: csv::Error| Failure::bad("--csv", error);
            if pair.number == 0 {
                files.append(table, &row.names().map_err(unmade)?)?;
            }
            files.append(table, &row.values().map_err(unmade)?)?;
        }
        self.record(pair, files)?;
        self.plot.add(pair);
        self.summary.add(pair);
        if let (None, Err(reason)) = (&self.bad, &pair.found) {
            self.bad = Some(reason.clone());
        }
        match (words.json, words.quiet) {
            (true, _) => files.say(&json::line(&row)),
            (false, true) => Ok(()),
            (false, false) => files.say(&pair.line()),
        }
    }

    /// Stores it in the run, if it is recorded.
    fn record(&mut self, pair: &Pair, files: &mut Files) -> Result<(), Failure> {
        if self.blocks.is_none() && self.headers.is_none() {
            return Ok(());
        }
        let refused = |refusal| Failure::refused(format!("{} to {}", pair.first, pair.second), refusal);
        let found = pair.found.as_ref().ok().map(|found| Found {
            status: found.answer.status,
            halvings: found.times.trailing_zeros() as u8,
            sides: (found.width as u16, found.height as u16),
            types: &found.report.types,
            models: &found.report.models,
            words: &found.samples,
        });
        let stored = self.recorder.pair(pair.frames, found.as_ref()).map_err(refused)?;
        self.blocks.map_or(Ok(()), |blocks| files.append(blocks, &stored.blocks))?;
        self.headers.map_or(Ok(()), |headers| files.append(headers, &stored.headers))
    }

    fn end(self, words: &Track, mut files: Files) -> Result<(), Failure> {
        let name = words.places.first().map(output::shown).unwrap_or_default();
        if let Some(reason) = self.bad.filter(|_| self.summary.is_all_bad()) {
            return Err(Failure::bad(name, format!("nothing of it can be measured: {reason}")));
        }
        if self.summary.pairs == 0 {
            return Err(Failure::bad(name, "it takes two frames or more"));
        }
        if let Some(headers) = self.headers {
            files.append(headers, &self.recorder.end())?;
        }
        if let Some(path) = &words.plot {
            let svg = self.plot.svg(&title(&words.places), &[]);
            files.add(path, svg.map_err(|error| Failure::bad("--plot", error))?.as_bytes())?;
        }
        if !words.json {
            files.say(&self.summary.text())?;
        }
        files.keep()?;
        match self.summary.troubled {
            troubled if words.strict && troubled > 0 => Err(Failure::Strict {
                what: format!("--strict: {troubled} of {} pairs are warned of, unexplained or bad", self.summary.pairs),
            }),
            _ => Ok(()),
        }
    }
}

/// What is tracked, in few words.
fn title(places: &[PathBuf]) -> String {
    match places {
        [place] if place == Path::new("-") => "motion".into(),
        [place] => format!("motion in {}", output::shown(place)),
        places => format!("motion in {} and {} more", output::shown(&places[0]), places.len() - 1),
    }
}
