//! Compares the static library with the Rust that it ports, on as many random inputs as asked for.
//! Arguments: how many inputs, and the first one's seed. Input i is made from the number SEED + i alone.
//! Stops at the first difference with the input's seed and what it is; else prints a count for each kind.

mod inputs;
mod kinds;
mod random;

use kinds::{Case, KINDS};
use random::Random;
use std::env;
use std::panic::{AssertUnwindSafe, catch_unwind};
use std::process::ExitCode;
use std::time::{Duration, Instant};

const DEFAULT_COUNT: u64 = 20_000;
const DEFAULT_SEED: u64 = 1;
/// A line on standard error says how far it is, as often as this.
const PROGRESS: Duration = Duration::from_secs(5);

/// How an input was compared: its kind, what befell it, or what differs.
struct Compared {
    kind: usize,
    case: Case,
    difference: Option<String>,
}

fn compare(seed: u64) -> Compared {
    let mut case = Case { random: Random::new(seed), input: String::new(), accepted: true };
    let shares: usize = KINDS.iter().map(|kind| kind.share).sum();
    let mut place = case.random.below(shares);
    let within = |kind: &kinds::Kind| {
        let found = place < kind.share;
        place = place.wrapping_sub(kind.share);
        found
    };
    let kind = KINDS.iter().position(within).expect("the place is below the sum of shares");
    let difference = match catch_unwind(AssertUnwindSafe(|| (KINDS[kind].compare)(&mut case))) {
        Ok(Ok(())) => None,
        Ok(Err(difference)) => Some(difference),
        Err(_) => Some("one of the two stopped".into()),
    };
    Compared { kind, case, difference }
}

fn main() -> ExitCode {
    let number = |place: usize, default: u64| match env::args().nth(place) {
        Some(text) => text.parse().map_err(|_| format!("{text:?} is no count and no seed")),
        None => Ok(default),
    };
    let (count, seed) = match (number(1, DEFAULT_COUNT), number(2, DEFAULT_SEED)) {
        (Ok(count), Ok(seed)) => (count, seed),
        (Err(message), _) | (_, Err(message)) => {
            eprintln!("compare: {message}; the arguments are [COUNT] [SEED]");
            return ExitCode::from(2);
        }
    };
    let mut counts = [[0u64; 2]; KINDS.len()];
    let begun = Instant::now();
    let mut next = PROGRESS;
    for input in 0..count {
        if begun.elapsed() >= next {
            eprintln!("compare: {input} of {count} inputs, no difference so far");
            next += PROGRESS;
        }
        let seed = seed.wrapping_add(input);
        let Compared { kind, case, difference } = compare(seed);
        if let Some(difference) = difference {
            println!("DIFFERENT: {} of seed {seed}, input {} of {count}", KINDS[kind].name, input + 1);
            println!("{}{difference}", case.input);
            println!("to repeat it: oracle/compare 1 {seed}");
            return ExitCode::FAILURE;
        }
        counts[kind][usize::from(!case.accepted)] += 1;
    }
    for (kind, [accepted, refused]) in KINDS.iter().zip(counts) {
        println!("{:<28}{:>9} the same, {refused} of them refused", kind.name, accepted + refused);
    }
    println!("{:<28}{count:>9} inputs from seed {seed} on, no difference", "all");
    ExitCode::SUCCESS
}
