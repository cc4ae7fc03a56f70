//! The lists for `worked_search`. The first: a count, then for each case 29 words of what is asked, six of what must
//! come back, and the sample words. The planes of a case are windows on a texture made from a seed. The
//! answers are the Rust's; refusals go by the rows 1, 2, 4, 3 of docs/RULES.md, and the rows added by `oracle::rows`.
//! The second: a count, then for each case its sides and pels, the pels of both planes, the samples, the rows added and
//! the sample words. The arguments are the files to write.

use oracle::list::{Lcg, List, sum};
use std::{env, io};

/// Where the windows lie, far enough from 0 for every shift.
const HOME: u32 = 1000;
/// No row or column beyond this is asked for.
const FAR: u32 = 9999;
/// The replay's buffers.
const PELS: usize = 6400;
const HALF_PELS: usize = 1632;
const WORDS: usize = 32;

#[derive(Clone, Copy)]
struct Texture {
    period: u32,
    threshold: u32,
    low: u32,
    mask: u32,
    high: u32,
}

#[derive(Clone, Copy)]
struct Window {
    seed: u32,
    row: u32,
    column: u32,
    first_row: u32,
    last_row: u32,
    first_column: u32,
    last_column: u32,
}

#[derive(Clone, Copy)]
struct Case {
    width: usize,
    height: usize,
    texture: Texture,
    input: Window,
    reference: Window,
    input_pels: usize,
    ref_pels: usize,
    classes: usize,
    changed_class: usize,
    class: u8,
    input_half_room: usize,
    ref_half_room: usize,
    word_room: usize,
}

const NOISE: Texture = Texture { period: FAR, threshold: 0, low: 0, mask: 0xffff, high: 0 };
const EIGHT_BITS: Texture = Texture { mask: 0xff, ..NOISE };
const TWO_VALUES: Texture = Texture { mask: 1, high: 128, ..NOISE };
const EXTREMES: Texture = Texture { threshold: 0x8000, mask: 0, high: 0xffff, ..NOISE };
const SPARKS: Texture = Texture { threshold: 0xf800, low: 20, mask: 0, high: 0xffff, ..NOISE };

fn flat(value: u16) -> Texture {
    Texture { mask: 0, high: u32::from(value), ..NOISE }
}

fn tiles(period: u32) -> Texture {
    Texture { period, ..EIGHT_BITS }
}

fn main() -> io::Result<()> {
    let path = |n| env::args().nth(n).expect("the arguments are the files to write");
    let cases: Vec<Case> = [pairs(), shifts(), edges(), rooms(), refusals()].concat();
    let mut list = List::default();
    list.push(cases.len() as u32);
    for case in cases {
        answer(&mut list, case);
    }
    list.write(path(1))?;

    let mut planes = List::default();
    let pairs = oracle::rows::worked();
    planes.push(pairs.len() as u32);
    for (width, height, input, reference, rows) in pairs {
        let words = oracle::sample_words(&input, &reference, width, height);
        assert_eq!(oracle::rows::search(&input, &reference, width, height).0, rows, "a worked count of docs/RULES.md");
        for word in [width, height, input.len()] {
            planes.push(word as u32);
        }
        for pel in [&input, &reference].into_iter().flatten() {
            planes.push(u32::from(*pel));
        }
        planes.push(words.len() as u32);
        planes.push(rows);
        for word in words {
            planes.push(word);
        }
    }
    planes.write(path(2))
}

/// Two windows at the same place, each on its own texture, with everything in order.
fn plain(width: usize, height: usize, texture: Texture, seed: u32) -> Case {
    let window =
        |seed| Window { seed, row: HOME, column: HOME, first_row: 0, last_row: FAR, first_column: 0, last_column: FAR };
    Case {
        width,
        height,
        texture,
        input: window(2 * seed),
        reference: window(2 * seed + 1),
        input_pels: width * height,
        ref_pels: width * height,
        classes: oracle::sample_count(width, height),
        changed_class: 0,
        class: (seed % 5) as u8,
        input_half_room: HALF_PELS,
        ref_half_room: HALF_PELS,
        word_room: WORDS,
    }
}

/// The reference moved by whole pels: what comes in at an edge is the texture's.
fn moved(case: Case, dy: i32, dx: i32) -> Case {
    let at = |d: i32| HOME.wrapping_add_signed(d);
    Case { input: Window { row: at(dy), column: at(dx), ..case.reference }, ..case }
}

/// The reference moved by whole pels: an edge repeats the reference's last pels.
fn dragged(case: Case, dy: i32, dx: i32) -> Case {
    let moved = moved(case, dy, dx);
    let input = Window {
        first_row: HOME,
        last_row: HOME + case.height as u32 - 1,
        first_column: HOME,
        last_column: HOME + case.width as u32 - 1,
        ..moved.input
    };
    Case { input, ..moved }
}

/// Every width and every height from 16 to 80, so every remainder by 16 on both sides, in one texture after another.
fn pairs() -> Vec<Case> {
    let textures = [
        NOISE,
        EIGHT_BITS,
        TWO_VALUES,
        EXTREMES,
        SPARKS,
        flat(0),
        flat(65535),
        flat(1),
        tiles(2),
        tiles(3),
        tiles(8),
        tiles(16),
    ];
    let mut random = Lcg(1);
    (0..65)
        .map(|k| {
            let (width, height) = (16 + k, 16 + 33 * k % 65);
            let case = plain(width, height, textures[k % textures.len()], 100 + k as u32);
            let mut step = || i32::from(random.below(53)) - 26;
            let (dy, dx) = (step(), step());
            match k / textures.len() % 3 {
                0 => case,
                1 => moved(case, dy, dx),
                _ => dragged(case, dy, dx),
            }
        })
        .collect()
}

/// Pure shifts: inside the range, at its ends and beyond it, at each edge and each corner.
fn shifts() -> Vec<Case> {
    let mut cases = Vec::new();
    for d in [1, 24, 27, 28, 30] {
        for (y, x) in [(0, 1), (0, -1), (1, 0), (-1, 0), (1, 1), (1, -1), (-1, 1), (-1, -1)] {
            let case = plain(32, 40, EIGHT_BITS, 300 + d as u32);
            cases.push(moved(case, d * y, d * x));
            cases.push(dragged(case, d * y, d * x));
        }
    }
    let case = plain(47, 63, EXTREMES, 299);
    cases.push(dragged(case, 30, -30));
    cases.push(dragged(case, -30, 30));
    cases
}

/// The worked pairs of docs/RULES.md, and sides that hold no block or reach the limits.
fn edges() -> Vec<Case> {
    let mut cases = Vec::new();
    for (width, height) in [(16, 16), (15, 16), (33, 16)] {
        cases.push(plain(width, height, flat(500), 400));
    }
    for (width, height) in [
        (0, 0),
        (0, 1024),
        (1024, 0),
        (1, 1),
        (16, 15),
        (15, 15),
        (6, 1024),
        (1024, 6),
        (15, 400),
        (400, 15),
        (16, 400),
        (400, 16),
        (17, 17),
        (31, 32),
        (32, 31),
        (80, 80),
    ] {
        let case = plain(width, height, NOISE, 401);
        cases.push(case);
        cases.push(moved(case, 5, -7));
    }
    cases
}

/// Buffers that are just long enough: none is needed where there are no samples.
fn rooms() -> Vec<Case> {
    [(16, 16), (33, 16), (35, 50), (15, 16), (16, 15), (0, 0), (1024, 6)]
        .map(|(width, height)| {
            let case = plain(width, height, NOISE, 500);
            let samples = case.classes;
            let half = if samples == 0 { 0 } else { width / 2 * (height / 2) };
            Case { input_half_room: half, ref_half_room: half, word_room: samples, ..case }
        })
        .to_vec()
}

/// Each cause of each refusal alone, and two of them or all at once.
fn refusals() -> Vec<Case> {
    let mut cases = Vec::new();
    for (width, height) in [(16, 16), (33, 48)] {
        let case = plain(width, height, NOISE, 600);
        let causes = causes(case);
        for (at, (row, change)) in causes.iter().enumerate() {
            let one = change(case);
            assert_eq!(refusal(&one), *row, "a cause alone");
            cases.push(one);
            for (other, also) in &causes[at + 1..] {
                let two = also(one);
                // 4 stands before 3 in the table
                let first = [1, 2, 4, 3].into_iter().find(|r| r == row || r == other).expect("a row");
                assert_eq!(refusal(&two), first, "two causes");
                cases.push(two);
            }
        }
        cases.push(causes.iter().fold(case, |case, (_, change)| change(case)));
    }
    for (width, height) in [(1025, 0), (0, 1025), (1025, 6), (6, 1025), (1025, 1025), (65536, 65536)] {
        let case = plain(width, height, NOISE, 601);
        let pels = if width * height > PELS { 0 } else { width * height };
        let case = Case { input_pels: pels, ref_pels: pels, classes: 0, ..case };
        cases.push(case);
        cases.push(Case { input_half_room: 0, ref_half_room: 0, word_room: 0, ..case });
    }
    let none = plain(15, 16, NOISE, 602);
    cases.push(Case { input_pels: 239, ..none });
    cases.push(Case { ref_pels: 241, ..none });
    cases.push(Case { classes: 1, ..none });
    cases.push(Case { classes: 1, class: 5, ..none });
    cases
}

type Change = Box<dyn Fn(Case) -> Case>;

/// The row that each change of a case brings about.
fn causes(case: Case) -> Vec<(u32, Change)> {
    let pels = case.width * case.height;
    let samples = case.classes;
    let half = case.width / 2 * (case.height / 2);
    let mut causes: Vec<(u32, Change)> = Vec::new();
    causes.push((1, Box::new(|c| Case { width: 1025, ..c })));
    causes.push((1, Box::new(|c| Case { height: 1025, ..c })));
    for pels in [0, pels - 1, pels + 1] {
        causes.push((2, Box::new(move |c| Case { input_pels: pels, ..c })));
        causes.push((2, Box::new(move |c| Case { ref_pels: pels, ..c })));
    }
    for classes in [samples - 1, samples + 1] {
        causes.push((2, Box::new(move |c| Case { classes, ..c })));
    }
    for (changed_class, class) in [(0, 5), (samples - 1, 5), (samples / 2, 255)] {
        causes.push((4, Box::new(move |c| Case { changed_class, class, ..c })));
    }
    for room in [0, half - 1] {
        causes.push((3, Box::new(move |c| Case { input_half_room: room, ..c })));
        causes.push((3, Box::new(move |c| Case { ref_half_room: room, ..c })));
    }
    for word_room in [0, samples - 1] {
        causes.push((3, Box::new(move |c| Case { word_room, ..c })));
    }
    causes
}

/// The class list that is handed over.
fn classes(case: &Case) -> Vec<u8> {
    let mut classes: Vec<u8> = (0..WORDS).map(|i| (i % 5) as u8).collect();
    classes[case.changed_class] = case.class;
    classes.truncate(case.classes);
    classes
}

/// The rules' rows in their order, 0 where none holds.
fn refusal(case: &Case) -> u32 {
    let (width, height) = (case.width, case.height);
    let samples = oracle::sample_count(width, height);
    let half = width / 2 * (height / 2);
    if width > 1024 || height > 1024 {
        1
    } else if case.input_pels != width * height || case.ref_pels != width * height || case.classes != samples {
        2
    } else if classes(case).iter().any(|&class| class > 4) {
        4
    } else if samples > 0 && (case.input_half_room < half || case.ref_half_room < half || case.word_room < samples) {
        3
    } else {
        0
    }
}

fn answer(list: &mut List, case: Case) {
    let refusal = refusal(&case);
    let mut half_planes = [Vec::new(), Vec::new()];
    let mut words = Vec::new();
    let mut rows = 0;
    if refusal == 0 {
        let (width, height) = (case.width, case.height);
        let [input, reference] = [case.input, case.reference].map(|w| plane(&case, w));
        words = oracle::sample_words(&input, &reference, width, height);
        if !words.is_empty() {
            rows = oracle::rows::search(&input, &reference, width, height).0;
            half_planes = [input, reference].map(|p| oracle::half_plane(&p, width, height));
        }
    }
    for word in asked(&case) {
        list.push(word);
    }
    list.push(refusal);
    list.push(words.len() as u32);
    list.push(rows);
    list.push(half_planes[0].len() as u32);
    for half in &half_planes {
        list.push(sum(half));
    }
    for word in words {
        list.push(word);
    }
}

fn asked(case: &Case) -> Vec<u32> {
    let t = case.texture;
    let mut asked = vec![case.width as u32, case.height as u32, t.period, t.threshold, t.low, t.mask, t.high];
    for w in [case.input, case.reference] {
        asked.extend([w.seed, w.row, w.column, w.first_row, w.last_row, w.first_column, w.last_column]);
    }
    asked.extend([case.input_pels as u32, case.ref_pels as u32, case.classes as u32, case.changed_class as u32]);
    asked.push(u32::from(case.class));
    asked.extend([case.input_half_room as u32, case.ref_half_room as u32, case.word_room as u32]);
    asked
}

fn plane(case: &Case, window: Window) -> Vec<u16> {
    let row = |r| (0..case.width).map(move |c| pel(case.texture, window, r as u32, c as u32));
    (0..case.height).flat_map(row).collect()
}

/// A pel of a window, as the replay makes it.
fn pel(t: Texture, w: Window, r: u32, c: u32) -> u16 {
    let row = (w.row + r).clamp(w.first_row, w.last_row) % t.period;
    let column = (w.column + c).clamp(w.first_column, w.last_column) % t.period;
    let number = step(mixed(mixed(w.seed, row), column)) >> 16;
    (if number < t.threshold { t.low } else { number & t.mask ^ t.high }) as u16
}

fn mixed(state: u32, word: u32) -> u32 {
    let next = step(state ^ word);
    next ^ next >> 16
}

fn step(state: u32) -> u32 {
    let mut random = Lcg(state);
    random.step();
    random.0
}
