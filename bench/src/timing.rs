//! Times of several ways to do a thing, taken in turns.

use std::time::{Duration, Instant};

use crate::cases::Work;

/// One timing lasts at least this long, so that the clock's own steps don't count.
const LEAST: Duration = Duration::from_micros(300);
/// Turns go on for so long, and for so many rounds at least.
#[derive(Clone, Copy)]
pub struct Budget {
    pub time: Duration,
    pub rounds: usize,
}

/// For the page, and for a quick look.
pub const WHOLE: Budget = Budget { time: Duration::from_millis(2500), rounds: 11 };
pub const QUICK: Budget = Budget { time: Duration::from_millis(250), rounds: 3 };

/// The times of several ways in seconds: `rounds[r][i]` is what way i took in round r.
pub struct Times {
    rounds: Vec<Vec<f64>>,
}

impl Times {
    /// The best time of a way.
    pub fn best(&self, i: usize) -> f64 {
        self.rounds.iter().map(|round| round[i]).fold(f64::MAX, f64::min)
    }

    /// The best time of a way divided by that of another.
    pub fn ratio(&self, i: usize, of: usize) -> f64 {
        self.best(i) / self.best(of)
    }

    /// The least and the greatest of the rounds' ratios of two ways.
    pub fn spread(&self, i: usize, of: usize) -> (f64, f64) {
        let ratios = self.rounds.iter().map(|round| round[i] / round[of]).filter(|ratio| ratio.is_finite());
        ratios.fold((f64::MAX, 0.0), |(least, most), ratio| (least.min(ratio), most.max(ratio)))
    }
}

#[repr(C)]
struct Timespec {
    seconds: i64,
    nanoseconds: i64,
}

/// Linux's number for the clock of this thread's processor time.
const THREAD_CPUTIME: i32 = 3;

unsafe extern "C" {
    fn clock_gettime(clock: i32, time: *mut Timespec) -> i32;
}

/// The processor time that this thread has had: what other programs take in between doesn't count.
fn processor_time() -> Duration {
    let mut time = Timespec { seconds: 0, nanoseconds: 0 };
    // SAFETY: the pointer is to a timespec of this target's layout.
    let status = unsafe { clock_gettime(THREAD_CPUTIME, &mut time) };
    assert_eq!(status, 0, "this system has no clock of a thread's time");
    Duration::new(time.seconds as u64, time.nanoseconds as u32)
}

fn time(runs: u32, work: &mut Work) -> Duration {
    let start = processor_time();
    for _ in 0..runs {
        work();
    }
    processor_time() - start
}

/// How many runs make one timing.
fn runs_for(work: &mut Work) -> u32 {
    let mut runs = 1;
    while time(runs, work) < LEAST {
        runs *= 2;
    }
    runs
}

/// One timing of each way in every round, and the first of a round is the last of the next. A guest's clock can lose time
/// to its host, so a timing far below the least one counts as endless.
pub fn in_turns(works: &mut [Work], budget: Budget) -> Times {
    let runs: Vec<u32> = works.iter_mut().map(runs_for).collect();
    let start = Instant::now();
    let mut rounds = Vec::new();
    while rounds.len() < budget.rounds || start.elapsed() < budget.time {
        let mut round = vec![f64::INFINITY; works.len()];
        for turn in 0..works.len() {
            let i = (rounds.len() + turn) % works.len();
            let took = time(runs[i], &mut works[i]);
            if took > LEAST / 4 {
                round[i] = took.as_secs_f64() / f64::from(runs[i]);
            }
        }
        rounds.push(round);
    }
    Times { rounds }
}
