//! One frame on several threads: how much sooner a job ends, and what its bands take together of the processor.

use std::hint::black_box;
use std::thread;
use std::time::{Duration, Instant};

use belt::{Buffers, Report};

use crate::cases::{self, Work};
use crate::inputs::{ROTZOOM, Scene};
use crate::job::Job;
use crate::timing::{self, Budget};

const SIDE: usize = 1024;
const THREADS: usize = 2;
/// How many times as fast a job is to be on two threads, and how many times the processor time of the search its bands
/// may take.
const FASTER: f64 = 1.85;
const TOGETHER: f64 = 1.03;
/// A timing of a job on threads takes long, and other programs count in it: many rounds.
const BUDGET: Budget = Budget { time: Duration::from_secs(6), rounds: 40 };

/// The page's part.
pub fn told() -> String {
    let mut text = format!(
        "## One frame on several threads\n\n\
         Block rows of a search are bands that don't depend on each other: the caller's threads share a frame \
         (`belt::job_parallel` of `bindings/rust`), with the answer of one thread, bit for bit. Times here are the clock's, the \
         best of rounds taken in turns, on a machine with {} processors. The bands' processor time, half planes and 64 bands of one block row on \
         one thread, is divided by that of the whole search.\n\n\
         | what | input | measured | wanted |\n|---|---|---|---|\n",
        thread::available_parallelism().map_or(1, |count| count.get())
    );
    let [alone, shared] = jobs();
    let input = format!("rotation-zoom, textured {SIDE}×{SIDE}");
    text += &format!("| job, 1 thread | {input} | {:.2} ms | |\n", 1000.0 * alone);
    text += &format!("| job, {THREADS} threads | {input} | {:.2} ms | |\n", 1000.0 * shared);
    text += &format!("| 1 thread / {THREADS} threads | {input} | {:.2} | at least {FASTER:.2} |\n", alone / shared);
    for scene in Scene::ALL {
        let times = timing::in_turns(&mut in_bands(scene), timing::WHOLE);
        let (least, greatest) = times.spread(0, 1);
        text += &format!(
            "| bands / search, processor time | {} {SIDE}×{SIDE} | {:.3} ({least:.3} to {greatest:.3}) | at most {TOGETHER:.2} |\n",
            scene.name(),
            times.ratio(0, 1)
        );
    }
    text
}

/// The best seconds of a job on one thread and on two, after their answers were compared.
fn jobs() -> [f64; 2] {
    let job = Job::new(ROTZOOM, SIDE, SIDE);
    let mut lent = [Buffers::new(SIDE, SIDE), Buffers::new(SIDE, SIDE)];
    let reports: [Report; 2] =
        [1, THREADS].map(|threads| job.run_on(threads, &mut lent[threads - 1]).expect("it is accepted"));
    assert_eq!(job.run(&mut Buffers::new(SIDE, SIDE)), Ok(reports[0]));
    assert_eq!(reports[0], reports[1]);
    assert!(lent[0] == lent[1], "the buffers differ");
    let mut best = [f64::MAX; 2];
    let (begun, mut rounds) = (Instant::now(), 0);
    while rounds < BUDGET.rounds || begun.elapsed() < BUDGET.time {
        for turn in 0..2 {
            let own = (rounds + turn) % 2;
            let start = Instant::now();
            // one thread is the plain call
            match own {
                0 => black_box(black_box(&job).run(black_box(&mut lent[0])).ok()),
                _ => black_box(black_box(&job).run_on(THREADS, black_box(&mut lent[1])).ok()),
            };
            best[own] = best[own].min(start.elapsed().as_secs_f64());
        }
        rounds += 1;
    }
    best
}

/// The half planes and every band of a picture, one after the other, and its whole search.
fn in_bands(scene: Scene) -> [Work; 2] {
    let (input, reference) = scene.pair(SIDE, SIDE, 0);
    let mut lent = Buffers::new(SIDE, SIDE);
    let bands = move |lent: &mut Buffers| {
        let Buffers { input_half, ref_half, words, .. } = lent;
        let halved =
            |plane: &[u16], half: &mut [u16]| belt::half_plane(plane, SIDE, SIDE, half).expect("it is accepted");
        halved(&input, input_half);
        halved(&reference, ref_half);
        let band = |(row, words): (usize, &mut [u32])| {
            let (input, reference) = (black_box(&input), &reference);
            let found = belt::search_band(input, reference, SIDE, SIDE, input_half, ref_half, row..row + 1, words);
            found.expect("it is accepted").rows
        };
        words.chunks_mut(SIDE / belt::BLOCK_SIDE).enumerate().map(band).sum::<u32>()
    };
    let (rows, whole) = cases::searched_once(scene, SIDE);
    assert_eq!(bands(&mut lent), rows);
    assert!(lent == whole, "the buffers differ");
    [Box::new(move || _ = black_box(bands(black_box(&mut lent)))), cases::searches(scene, SIDE, SIDE, 1)]
}
