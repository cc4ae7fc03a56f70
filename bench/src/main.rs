//! Measures the proved library against the Rust that it ports, and writes the ratios.
//!
//!     bench FILE PICTURE          every case: a table on standard output, a page in FILE, and the growth of the search in PICTURE
//!     bench quick                 a few cases, a table on standard output
//!     bench run                   the cases in a run alone: their lines on standard output
//!     bench bands                 one frame on several threads alone: the lines on standard output
//!     bench only TEXT             the cases that have TEXT in their line, a table on standard output
//!     bench growth PICTURE        the growth of the search alone
//!     bench list                  the cases and their numbers
//!     bench repeat CASE SIDE N    one side ('ours', 'rust' or 'ready') of a case N times, for a profiler

mod bands;
mod cases;
mod frames;
mod growth;
mod header;
mod inputs;
mod job;
mod placing;
mod run;
mod timing;

use std::time::Instant;
use std::{env, fs};

use belt::Refusal;

use cases::Case;
use timing::Budget;

fn main() {
    let words: Vec<String> = env::args().skip(1).collect();
    let words: Vec<&str> = words.iter().map(String::as_str).collect();
    match words[..] {
        ["list"] => list(),
        ["run"] => print!("{}", in_a_run()),
        ["bands"] => print!("{}", bands::told()),
        ["only", text] => drop(measure(only(text), timing::WHOLE)),
        ["growth", picture] => print!("{}", growth(picture)),
        ["repeat", case, side, times] => repeat(case, side, times),
        ["quick"] => drop(measure(cases::few(), timing::QUICK)),
        [file, picture] => page(file, picture),
        _ => panic!(
            "usage: bench FILE PICTURE | bench quick | bench run | bench bands | bench only TEXT | bench growth PICTURE | bench list | bench repeat CASE SIDE N"
        ),
    }
}

fn list() {
    for (number, case) in cases::all().iter().enumerate() {
        println!("{number} {case}");
    }
}

fn repeat(case: &str, side: &str, times: &str) {
    let case = cases::all()[case.parse::<usize>().expect("a case's number")];
    let sides = case.sides();
    let mut work = match side {
        "ours" => sides.ours,
        "rust" => sides.rust,
        "ready" => sides.ready.expect("this case has no such side"),
        _ => panic!("a side is 'ours', 'rust' or 'ready'"),
    };
    for _ in 0..times.parse::<u32>().expect("how often") {
        work();
    }
}

/// Every case, and the growth of the search.
fn page(file: &str, picture: &str) {
    compare_the_rest();
    let (table, absolute) = measure(cases::all(), timing::WHOLE);
    let in_a_run = in_a_run();
    print!("{in_a_run}");
    let on_threads = bands::told();
    print!("{on_threads}");
    let growth = growth(picture);
    let times = "## Times of a job\n\nIn milliseconds, on the machine above, one thread.\n\n\
                 | call | input | ours | Rust |\n|---|---|---|---|\n";
    let page = format!("{}\n{table}\n{in_a_run}\n{on_threads}\n{times}{absolute}\n{growth}", head());
    fs::write(file, page).expect("the page's folder is there");
}

/// The growth of the search: drawn into a file, and as a part of the page.
fn growth(picture: &str) -> String {
    let growth = growth::measure();
    fs::write(picture, growth::drawn(&growth)).expect("the picture's folder is there");
    growth::told(&growth)
}

fn only(text: &str) -> Vec<Case> {
    cases::all().into_iter().filter(|case| case.to_string().contains(text)).collect()
}

/// The table of the cases, a line printed when it is measured, and the times of the jobs among them.
fn measure(cases: Vec<Case>, budget: Budget) -> (String, String) {
    let (count, begun) = (cases.len(), Instant::now());
    let mut absolute = String::new();
    let mut table = String::from(
        "| call | input | ours / Rust | rounds | at most | ours / Rust, samples ready made |\n|---|---|---|---|---|---|\n",
    );
    print!("{table}");
    for (number, case) in cases.into_iter().enumerate() {
        eprintln!("bench: case {} of {count}, {} s so far", number + 1, begun.elapsed().as_secs());
        let sides = case.sides();
        let mut works = vec![sides.ours, sides.rust];
        works.extend(sides.ready);
        let times = timing::in_turns(&mut works, budget);
        let (ratio, (least, greatest)) = (times.ratio(0, 1), times.spread(0, 1));
        let most = case.most().map_or(String::new(), wanted);
        let ready = if works.len() > 2 { format!("{:.2}", times.ratio(0, 2)) } else { String::new() };
        let line = format!("| {case} | {} | {} to {} | {most} | {ready} |\n", said(ratio), said(least), said(greatest));
        print!("{line}");
        table += &line;
        if let Some(pictures) = case.jobs() {
            let milliseconds = |i| 1000.0 * times.best(i) / pictures as f64;
            absolute += &format!("| {case} | {:.2} | {:.2} |\n", milliseconds(0), milliseconds(1));
        }
    }
    (table, absolute)
}

/// A ratio with two figures after the point, or three where it is small.
fn said(ratio: f64) -> String {
    if ratio < 0.1 { format!("{ratio:.3}") } else { format!("{ratio:.2}") }
}

/// What is wanted, with as many figures as it has.
fn wanted(most: f64) -> String {
    let figures = if (100.0 * most).fract() > 0.01 { 3 } else { 2 };
    format!("{most:.figures$}")
}

/// What a run costs, as a part of the page.
fn in_a_run() -> String {
    let line = |case: run::Case| case.line(&timing::in_turns(&mut case.sides(), timing::WHOLE));
    run::all().into_iter().map(line).fold(run::head().into(), |page: String, line| page + &line)
}

/// The calls that aren't measured give the Rust's answers too, and both writers of a field the same bytes.
fn compare_the_rest() {
    placing::compare();
    for value in (-5_000_000..5_000_000).step_by(997).chain([i32::MIN, i32::MAX, 0, 65_535, 65_537]) {
        for (kind, flag, slot) in [(0, 0, 0), (1, 0, 0), (1, 1, 1), (2, 1, 2), (3, 0, 3), (3, 1, 5)] {
            let rust = oracle::quantize_global_param(kind, flag == 1, usize::from(slot), value);
            assert_eq!(belt::quantize_global_param(kind, flag, slot, value), Ok(rust));
        }
    }
    assert_eq!(belt::quantize_global_param(4, 0, 0, 1), Err(Refusal::NoSuchCode));

    let mut text = [0; belt::TEXT_BYTES];
    let samples = oracle::blocks::samples(&oracle::blocks::words(3, 300));
    for form in [oracle::blocks::ONE, oracle::blocks::TWO] {
        let mut blocks = oracle::blocks::write(form, 7, &samples);
        blocks[600] ^= 1;
        blocks.truncate(2 * frames::BLOCK + 511);
        for bytes in blocks.chunks(frames::BLOCK) {
            assert_eq!(belt::list_block(bytes, &mut text), oracle::blocks::text(bytes));
            let ours = belt::judge_block(bytes).map(|block| block.count).map_err(Refusal::number);
            assert_eq!(ours, oracle::blocks::judge_alone(bytes).map(|samples| samples.len()));
        }
    }
}

/// The page's text before the table.
fn head() -> String {
    let flags = match env!("BENCH_RUSTFLAGS") {
        "" => "no further flags",
        flags => flags,
    };
    format!(
        "# Speed\n\n\
         The time of each call divided by the time of the Rust, by `bench/run`. Below 1 the proved library is faster.\n\n\
         Processor: {}. Rust: {}, release build, opt-level {}, {flags}. Library: `bindings/library`, {}. \
         Both sides are compiled for plain x86-64 (SSE2).\n\n\
         One driver calls both sides on the same input, ours through `bindings/rust`, compares their answers, and then times them in turns. \
         Each ratio is the best processor time of ours divided by the best of the Rust, over {} rounds or more; \
         'rounds' has the least and the greatest of the rounds' own ratios. \
         A search or a job of up to 64 blocks is measured on 200 pictures, one after the other: \
         a processor learns the branches of a picture that it meets again and again. \
         'At most' is the ratio that is wanted; calls without one are only reported.\n\n\
         Searches, fits, scores, quantizations and headers are measured against the Rust that is ported. \
         Fits, scores and quantizations take sample words. The Rust has no such form: in the first ratio it makes its list of samples of the \
         same words; in the last column, 'samples ready made', it has that list ready made and ours still reads words. \
         A row of samples has the list ready made on both sides: ours walks it, and makes none. \
         A trimmed fit goes through the model on the grid, against those lines of `candidate_for`; one word in sixteen is loose. \
         An election is measured against `estimate_global_motion`, which gives no score, on a field that turns, one word in sixteen by two pels beside it. \
         A call by class names every class but film, which is one word in five: ours takes the words and their classes, \
         and the Rust makes its samples of the words that aren't film. \
         Over samples that are ready made the Rust picks those that aren't film, and ours takes all and their classes. \
         Blocks are measured against a plain Rust writing of docs/RULES.md over lent buffers (`bench/src/frames.rs`).\n\n\
         A header has seven models of one type at high precision. A near prior is up to three steps of the grid from the models and gives short codes, \
         a far one is at the other end of the range and gives long codes; seven identities have no codes, and ours only judges their prior. \
         Ours judges models, prior and room before it writes, and the Rust doesn't. \
         The Rust reads bits by the stand-in of `oracle/src/stand_ins.rs`, one at a time, since its own bit reader isn't published.\n\n\
         'Search / by hand' has no Rust: it is our time divided by that of the same search written by hand in C with SSE2 \
         (`bench/hand/search.c`), which gives the same words, half planes and rows; nothing proves that one.\n\n\
         'Word / one by one' has no Rust: a field put into its bytes at once is divided by the same field put there bit by bit, \
         both proved to the same promise (`crates/bench_placing`); 24 fields of a width from bit 3 on, or the fields of a header.\n\n\
         A job is measured against the composition of the Rust's parts: search, words, fit, quantization, score, \
         blocks by `bench/src/frames.rs`, and header. Its fit takes the samples of its search as they are; a job that elects has \
         `estimate_global_motion` there, and a score of the elected model. \
         The six references beside the fitted one have affine models and near priors.\n\n\
         No buffer is cleared before a call: the lent ones hold what the call before left there, and were touched before the first timing. \
         The Rust's search makes its half planes and its list of samples in each call, its header writer makes its bytes, and that is in its time.\n",
        processor(),
        env!("BENCH_RUSTC"),
        env!("BENCH_OPT_LEVEL"),
        env::var("BENCH_KIT").unwrap_or("an unnamed kit".into()),
        timing::WHOLE.rounds,
    )
}

fn processor() -> String {
    let text = fs::read_to_string("/proc/cpuinfo").unwrap_or_default();
    let field = |name: &str| {
        let line = text.lines().find(|line| line.split(':').next().is_some_and(|key| key.trim() == name));
        line.and_then(|line| line.split(':').nth(1)).unwrap_or("unknown").trim().to_string()
    };
    format!("{}, family {}, model {}", field("model name"), field("cpu family"), field("model"))
}
