//! What a run costs: a frame written or read in a run, and a job, against the plain call with the run's flag and prior.

use std::fmt;
use std::hint::black_box;

use belt::{Buffers, IDENTITIES, Kind, Run, RunReader, StoredModel};

use crate::cases::Work;
use crate::header::{Distance, Header};
use crate::inputs::{AFFINE, HIGH_PRECISION, IDENTITY, ROTZOOM, TRANSLATION};
use crate::job::Job;
use crate::timing::Times;

/// How much longer a frame may take in a run, in nanoseconds.
const FRAME: f64 = 60.0;
/// How many times as long a job may take: not measurably longer.
const JOB: f64 = 1.02;
/// The form that a job stores outside a run.
const FORM: u32 = 2;

#[derive(Clone, Copy)]
pub enum Case {
    Write(u8),
    WriteKey,
    Read(u8),
    ReadKey,
    Job(u8, usize, usize),
}

use Case::*;

pub fn all() -> Vec<Case> {
    let kinds = [IDENTITY, TRANSLATION, AFFINE];
    let jobs = [Job(ROTZOOM, 64, 64), Job(ROTZOOM, 640, 480)];
    [&kinds.map(Write)[..], &[WriteKey], &kinds.map(Read), &[ReadKey], &jobs].concat()
}

impl fmt::Display for Case {
    fn fmt(&self, f: &mut fmt::Formatter) -> fmt::Result {
        let name = |kind: u8| ["identity", "translation", "rotation-zoom", "affine"][usize::from(kind)];
        match *self {
            Write(kind) => write!(f, "frame written | seven {}", name(kind)),
            WriteKey => write!(f, "frame written | key frame"),
            Read(kind) => write!(f, "frame read | seven {}", name(kind)),
            ReadKey => write!(f, "frame read | key frame"),
            Job(kind, width, height) => write!(f, "job | {}, textured {width}×{height}", name(kind)),
        }
    }
}

impl Case {
    /// The call in a run, and the plain one, after their answers were compared.
    pub fn sides(&self) -> [Work; 2] {
        match *self {
            Write(kind) => write(Header::new(kind, Distance::Near).again()),
            WriteKey => write_key(),
            Read(kind) => read(Header::new(kind, Distance::Near).again()),
            ReadKey => read_key(),
            Job(kind, width, height) => job(crate::job::Job::new(kind, width, height), width, height),
        }
    }

    /// A line of the page, of the best times; what is wanted of a frame is a difference, of a job a ratio.
    pub fn line(&self, times: &Times) -> String {
        let (ratio, (least, greatest)) = (times.ratio(0, 1), times.spread(0, 1));
        let more = 1e9 * (times.best(0) - times.best(1));
        match self {
            Job(..) => format!("| {self} | {ratio:.3} | {least:.3} to {greatest:.3} | {JOB:.2} | | |\n"),
            _ => format!("| {self} | {ratio:.2} | {least:.2} to {greatest:.2} | | {more:.0} | {FRAME:.0} |\n"),
        }
    }
}

/// The page's text before the table of lines.
pub fn head() -> &'static str {
    "## In a run\n\n\
     A frame written or read in a run, and a job, divided by the plain call with the same flag and prior, both through \
     `bindings/rust`, measured in turns as above. Each frame follows its like, so that its prior is its own models. A run is handed in by \
     value each time, judged, and comes back with the answer. What is wanted of a frame is how many nanoseconds it may take more, of a job how many times as long.\n\n\
     | call | input | in a run / plain | rounds | at most | more, ns | at most, ns |\n|---|---|---|---|---|---|---|\n"
}

fn write(header: Header) -> [Work; 2] {
    let models = header.models.map(StoredModel);
    let mut run = Run::of_parts(models, HIGH_PRECISION, FORM);
    let (mut room, mut plain_room) = ([0; belt::HEADER_BYTES], [0; belt::HEADER_BYTES]);
    assert_eq!(run.frame(Kind::Inter, &header.types, &models, 0, &mut room), header.write(&mut plain_room));
    assert_eq!((room, run.prior()), (plain_room, &models));
    [
        Box::new(move || {
            let run = black_box(&mut run);
            black_box(run.frame(Kind::Inter, &header.types, black_box(&models), 0, black_box(&mut room)).ok());
        }),
        Box::new(move || {
            black_box(black_box(&header).write(black_box(&mut plain_room)).ok());
        }),
    ]
}

fn write_key() -> [Work; 2] {
    let mut run = Run::of_parts(IDENTITIES, HIGH_PRECISION, FORM);
    [
        Box::new(move || {
            black_box(black_box(&mut run).frame(Kind::Key, &[0; 7], black_box(&IDENTITIES), 0, &mut []).ok());
        }),
        Box::new(move || {
            let models = black_box(&IDENTITIES);
            black_box(
                belt::encode_global_motion(Kind::Key, &[0; 7], models, HIGH_PRECISION, &IDENTITIES, 0, &mut []).ok(),
            );
        }),
    ]
}

fn read(header: Header) -> [Work; 2] {
    let mut reader = RunReader::of_parts(header.models.map(StoredModel), HIGH_PRECISION, FORM);
    let (bytes, _) = header.rust_write();
    assert_eq!(reader.read(Kind::Inter, &bytes, 0), header.read(&bytes));
    assert_eq!(reader.prior(), &header.models.map(StoredModel));
    let plain_bytes = bytes.clone();
    [
        Box::new(move || {
            black_box(black_box(&mut reader).read(Kind::Inter, black_box(&bytes), 0).ok());
        }),
        Box::new(move || {
            black_box(black_box(&header).read(black_box(&plain_bytes)).ok());
        }),
    ]
}

fn read_key() -> [Work; 2] {
    let mut reader = RunReader::of_parts(IDENTITIES, HIGH_PRECISION, FORM);
    [
        Box::new(move || {
            black_box(black_box(&mut reader).read(Kind::Key, &[], 0).ok());
        }),
        Box::new(move || {
            black_box(belt::read_global_motion(Kind::Key, &[], 0, HIGH_PRECISION, black_box(&IDENTITIES)).ok());
        }),
    ]
}

fn job(job: Job, width: usize, height: usize) -> [Work; 2] {
    let (mut lent, mut plain_lent) = (Buffers::new(width, height), Buffers::new(width, height));
    assert_eq!(job.run_in(FORM, &mut lent), job.run(&mut plain_lent));
    assert!(lent == plain_lent, "the buffers differ");
    let plain = job.clone();
    [
        Box::new(move || {
            black_box(black_box(&job).run_in(FORM, black_box(&mut lent)).ok());
        }),
        Box::new(move || {
            black_box(black_box(&plain).run(black_box(&mut plain_lent)).ok());
        }),
    ]
}
