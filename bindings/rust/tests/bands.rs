//! A frame in bands and on several threads: the answers and the buffers of the calls without, bit for bit, refused and
//! accepted alike; and every row of the calls themselves.

mod frames;

use belt::Refusal::{self, *};
use belt::{
    Buffers, ClassSet, FILM, Form, HEADER_BYTES, IDENTITIES, Length, Lent, METAL, Report, Run, Searched, Settings,
    StoredModel, WordTask,
};
use frames::{Handed, guarded, moved, noisy_plane, smooth_plane};

/// SplitMix64.
struct Random(u64);

impl Random {
    fn below(&mut self, count: usize) -> usize {
        self.0 = self.0.wrapping_add(0x9E37_79B9_7F4A_7C15);
        let a = (self.0 ^ self.0 >> 30).wrapping_mul(0xBF58_476D_1CE4_E5B9);
        let b = (a ^ a >> 27).wrapping_mul(0x94D0_49BB_1331_11EB);
        ((b ^ b >> 31) % count as u64) as usize
    }

    fn one_in(&mut self, count: usize) -> bool {
        self.below(count) == 0
    }
}

/// A pair of some sides: noise that moved, a smooth scene that turned, flat, or two that have nothing to do with each
/// other; a part of it flat, so that its rows cost less than others.
fn planes(random: &mut Random, width: usize, height: usize) -> [Vec<u16>; 2] {
    let mut shift = |most: usize| random.below(2 * most + 1) as i64 - most as i64;
    let (dy, dx) = (shift(20), shift(20));
    let reference = noisy_plane(width, height);
    let mut pair = match random.below(5) {
        0 => [vec![9; width * height], vec![9; width * height]],
        1 => [smooth_plane(width, height, [1.5, -2.0, 1.01, 0.02, -0.02, 1.01]), smooth_plane(width, height, STILL)],
        2 => [reference.iter().map(|pel| pel.wrapping_mul(40_503)).collect(), reference],
        _ => [moved(&reference, width, height, dy, dx), reference],
    };
    if random.one_in(2) {
        let from = random.below(width * height + 1);
        pair.iter_mut().for_each(|plane| plane[from..].fill(500));
    }
    pair
}

const STILL: [f64; 6] = [0.0, 0.0, 1.0, 0.0, 0.0, 1.0];
/// Many rows, fewer than threads, one, none; sides that aren't whole blocks; a long and a wide one.
const SIDES: [(usize, usize); 12] = [
    (64, 48),
    (95, 81),
    (160, 32),
    (33, 130),
    (16, 16),
    (300, 17),
    (17, 260),
    (15, 64),
    (64, 15),
    (0, 9),
    (1, 1),
    (0, 0),
];

/// A job on such planes by random settings, now and then refused.
fn handed(random: &mut Random, width: usize, height: usize) -> Handed {
    let [input, reference] = planes(random, width, height);
    let mut handed = Handed::new(input, reference, width, height, 1 + random.below(3) as u8);
    let settings = &mut handed.settings;
    *settings = settings.reference(1 + random.below(7) as u8).start(random.below(8));
    (settings.trim, settings.elect) = (random.below(2) as u8, random.below(2) as u8);
    settings.set = if random.one_in(2) { ClassSet::ALL } else { ClassSet::from_bits(1 + random.below(31) as u8) };
    if random.one_in(3) {
        handed.classes.fill(METAL);
    }
    if random.one_in(3) {
        spoil(random, &mut handed);
    }
    handed
}

/// Something of each row that a job judges before its search.
fn spoil(random: &mut Random, handed: &mut Handed) {
    let place = random.below(6);
    match random.below(16) {
        0 => handed.width += 1024,
        1 => _ = handed.input.pop(),
        2 => handed.reference.push(1),
        3 => handed.classes.push(0),
        4 => _ = handed.types.pop(),
        5 => _ = handed.models.pop(),
        6 => _ = handed.prior.pop(),
        7 => handed.classes.iter_mut().for_each(|class| *class += 4),
        8 => handed.settings.flag = 2,
        9 => handed.settings.set = ClassSet::from_bits(0),
        10 => handed.settings.reference = 8,
        11 => handed.settings.start = 8,
        12 => handed.models[place] = StoredModel([1; 6]),
        13 => handed.prior[place] = StoredModel([i32::MAX; 6]),
        14 => handed.settings.frame = 0,
        _ => (handed.settings.trim, handed.settings.elect, handed.settings.set) = (1, 0, ClassSet::of(&[FILM])),
    }
}

/// At times a buffer that is one too short, and mostly some that are longer than they need be.
fn buffers(random: &mut Random, handed: &Handed) -> Buffers {
    let mut buffers = guarded(handed.width.min(1024), handed.height.min(1024));
    if random.one_in(8) {
        let needed = Buffers::new(handed.width, handed.height);
        let shorter = |length: usize| length.saturating_sub(1);
        match random.below(5) {
            0 => buffers.input_half.truncate(shorter(needed.input_half.len())),
            1 => buffers.ref_half.truncate(shorter(needed.ref_half.len())),
            2 => buffers.words.truncate(shorter(needed.words.len())),
            3 => buffers.blocks.truncate(shorter(needed.blocks.len())),
            _ => buffers.header.truncate(shorter(needed.header.len())),
        }
    }
    buffers
}

fn bits(report: Result<Report, Refusal>) -> Result<(Report, u64), Refusal> {
    report.map(|report| (report, report.score.to_bits()))
}

#[test]
fn a_job_is_the_same_on_every_count_of_threads() {
    let mut random = Random(1);
    let mut rows = [0; 20];
    for turn in 0..400 {
        let (width, height) = match SIDES.get(turn % 40) {
            Some(sides) => *sides,
            None => (random.below(200), random.below(200)),
        };
        let handed = handed(&mut random, width, height);
        let before = buffers(&mut random, &handed);
        let (task, mut whole) = (handed.task(), before.clone());
        let report = bits(belt::job(&task, &mut whole.lend()));
        rows[report.map_or_else(Refusal::number, |_| 0) as usize] += 1;
        let run = Run::of_parts(
            std::array::from_fn(|i| *handed.prior.get(i).unwrap_or(&IDENTITIES[i])),
            handed.settings.flag,
            1 + random.below(2) as u32,
        );
        let (mut whole_run, mut whole_in_run) = (run, before.clone());
        let report_in_run = bits(whole_run.job(&task, &mut whole_in_run.lend()));
        let mut search = before.clone();
        let Lent { input_half, ref_half, words, .. } = search.lend();
        let (input, reference, classes) = (task.input, task.reference, task.classes);
        let (width, height) = (task.width, task.height);
        let found = belt::collect_motion_samples(input, reference, width, height, classes, input_half, ref_half, words);
        for threads in 1..=8 {
            let mut own = before.clone();
            assert_eq!(bits(belt::job_parallel(&task, &mut own.lend(), threads)), report, "turn {turn}, {threads}");
            assert!(own == whole, "turn {turn}, {threads} threads: the buffers differ");
            let (mut own, mut own_run) = (before.clone(), run);
            assert_eq!(bits(own_run.job_parallel(&task, &mut own.lend(), threads)), report_in_run);
            assert!((own, own_run) == (whole_in_run.clone(), whole_run), "turn {turn}, {threads} threads, in a run");
            let mut own = before.clone();
            assert_eq!(own.search_parallel(&task, threads), found);
            assert!(own == search, "turn {turn}, {threads} threads: the search differs");
        }
    }
    // accepted ones, and every row that a job of a frame has (16 isn't known of words)
    for row in [0, 1, 2, 3, 4, 5, 6, 7, 8, 14, 15, 17, 19] {
        assert!(rows[row] > 0, "row {row} wasn't met: {rows:?}");
    }
}

#[test]
fn no_thread_counts_as_one_and_more_than_rows_as_these() {
    let handed = Handed::new(noisy_plane(48, 32), noisy_plane(48, 32), 48, 32, 1);
    let (mut none, mut many) = (guarded(48, 32), guarded(48, 32));
    let report = belt::job_parallel(&handed.task(), &mut none.lend(), 0);
    assert_eq!(belt::job_parallel(&handed.task(), &mut many.lend(), usize::MAX), report);
    assert!(report.is_ok() && none == many);
}

#[test]
fn bands_of_any_cut_follow_on() {
    let mut random = Random(2);
    for _ in 0..60 {
        let (width, height) = (16 + random.below(100), 16 + random.below(160));
        let [input, reference] = planes(&mut random, width, height);
        let handed = Handed::new(input, reference, width, height, 1);
        let mut whole = Buffers::new(width, height);
        let found = whole.search_parallel(&handed.task(), 1).unwrap();
        let [mut input_half, mut ref_half] = [&handed.input, &handed.reference].map(|plane| {
            let mut half = vec![7; whole.input_half.len() + 3];
            belt::half_plane(plane, width, height, &mut half).unwrap();
            assert_eq!(half.split_off(whole.input_half.len()), [7; 3]);
            half
        });
        assert!(input_half == whole.input_half && ref_half == whole.ref_half);
        let (columns, last) = (width / 16, height / 16);
        let mut words = vec![0xA5A5_5A5A; found.samples + 5];
        let (mut first, mut rows) = (0, 0);
        while first < last {
            let end = (first + random.below(4)).min(last);
            let own = &mut words[first * columns..];
            let band = search_band(&handed, &input_half, &ref_half, first, end, own).unwrap();
            assert_eq!(band.samples, (end - first) * columns);
            rows += band.rows;
            first = end;
        }
        assert_eq!((rows, words.split_off(found.samples)), (found.rows, vec![0xA5A5_5A5A; 5]));
        assert_eq!(words, whole.words);
        // half planes of other values: other words maybe, in range and in their places
        input_half.iter_mut().for_each(|value| *value = random.below(65_536) as u16);
        ref_half.reverse();
        search_band(&handed, &input_half, &ref_half, 0, last, &mut words).unwrap();
        for (place, word) in words.iter().enumerate() {
            let place = (place / columns) << 6 | place % columns;
            assert_eq!((word >> 20, word & 3), (place as u32, 0));
            assert!(word >> 11 & 511 <= 446 && word >> 2 & 511 <= 446);
        }
    }
}

fn search_band(
    handed: &Handed,
    input_half: &[u16],
    ref_half: &[u16],
    first: usize,
    end: usize,
    words: &mut [u32],
) -> Result<Searched, Refusal> {
    let Handed { input, reference, width, height, .. } = handed;
    belt::search_band(input, reference, *width, *height, input_half, ref_half, first..end, words)
}

fn wrong(name: &'static str, given: usize, wanted: usize) -> Refusal {
    WrongLength(Length { name, given, wanted })
}

fn short(name: &'static str, given: usize, wanted: usize) -> Refusal {
    TooShort(Length { name, given, wanted })
}

#[test]
fn rows_of_a_half_plane() {
    let mut out = [9; 12];
    assert_eq!(belt::half_plane(&[0; 7], 1025, 7, &mut out), Err(TooLarge));
    assert_eq!(belt::half_plane(&[0; 7], 7, 1025, &mut []), Err(TooLarge));
    assert_eq!(belt::half_plane(&[0; 34], 7, 5, &mut []), Err(wrong("plane", 34, 35)));
    assert_eq!(belt::half_plane(&[0; 35], 7, 5, &mut out[..5]), Err(short("out", 5, 6)));
    assert_eq!(out, [9; 12]);
    // sides under 16 have no samples, and a half plane all the same
    let plane: Vec<u16> = (0..35).collect();
    assert_eq!(belt::half_plane(&plane, 7, 5, &mut out), Ok(()));
    assert_eq!(out, [4, 6, 8, 18, 20, 22, 9, 9, 9, 9, 9, 9]);
    assert_eq!(belt::half_plane(&[65_535; 4], 2, 2, &mut out), Ok(()));
    assert_eq!(out[0], 65_535);
    assert_eq!(belt::half_plane(&[], 0, 0, &mut []), Ok(()));
    assert_eq!(belt::half_plane(&[1; 9], 1, 9, &mut []), Ok(()));
}

#[test]
fn rows_of_a_band() {
    let plane = noisy_plane(48, 40);
    let handed = Handed::new(plane.clone(), plane, 48, 40, 1);
    let half = vec![3; 24 * 20];
    let mut words = [9; 6];
    let mut of = |handed: &Handed, input_half: &[u16], ref_half: &[u16], first, end, room| {
        let before = words;
        let found = search_band(handed, input_half, ref_half, first, end, &mut words[..room]);
        assert!(found.is_ok() || words == before);
        found
    };
    let other = |change: fn(&mut Handed)| {
        let mut other = handed.clone();
        change(&mut other);
        other
    };
    // each row before the next: what is wrong later is wrong too
    assert_eq!(of(&other(|h| h.width = 1025), &[], &[], 9, 1, 0), Err(TooLarge));
    assert_eq!(of(&other(|h| h.height = usize::MAX), &[], &[], 9, 1, 0), Err(TooLarge));
    assert_eq!(of(&other(|h| _ = h.input.pop()), &half, &half, 9, 1, 0), Err(wrong("input", 1919, 1920)));
    assert_eq!(of(&other(|h| h.reference.push(0)), &half, &half, 9, 1, 0), Err(wrong("reference", 1921, 1920)));
    assert_eq!(of(&handed, &half[1..], &half, 9, 1, 0), Err(wrong("input_half", 479, 480)));
    assert_eq!(of(&handed, &half, &[0; 481], 9, 1, 0), Err(wrong("ref_half", 481, 480)));
    assert_eq!(of(&handed, &half, &[], 9, 1, 0), Err(wrong("ref_half", 0, 480)));
    assert_eq!(of(&handed, &half, &half, 2, 1, 0), Err(NoSuchSlot));
    assert_eq!(of(&handed, &half, &half, 0, 3, 0), Err(NoSuchSlot));
    assert_eq!(of(&handed, &half, &half, 3, 3, 0), Err(NoSuchSlot));
    assert_eq!(of(&handed, &half, &half, usize::MAX, usize::MAX, 0), Err(NoSuchSlot));
    assert_eq!(of(&handed, &half, &half, 0, 2, 5), Err(short("words", 5, 6)));
    assert_eq!(of(&handed, &half, &half, 1, 2, 2), Err(short("words", 2, 3)));
    let none = of(&handed, &half, &half, 2, 2, 0).unwrap();
    assert_eq!((none.samples, none.rows), (0, 0));
    assert_eq!(of(&handed, &half, &half, 1, 2, 6).map(|found| found.samples), Ok(3));
    assert_eq!((words[0] >> 20, words[3]), (1 << 6, 9));
    // half planes are asked for where there are no samples, too
    let low = Handed::new(vec![0; 480], vec![0; 480], 48, 10, 1);
    assert_eq!(search_band(&low, &[], &[], 0, 0, &mut []), Err(wrong("input_half", 0, 120)));
    assert_eq!(search_band(&low, &[0; 120], &[0; 120], 0, 0, &mut []).map(|found| found.samples), Ok(0));
    assert_eq!(search_band(&low, &[0; 120], &[0; 120], 0, 1, &mut []), Err(NoSuchSlot));
}

/// Words that rise, with a motion that no two have alike.
fn words(count: usize) -> Vec<u32> {
    (0..count as u32).map(|i| i << 20 | (220 + i * i % 7) << 11 | (226 + i % 5) << 2).collect()
}

/// A change of what a job of words is handed and lent.
type Change = fn(&mut Of);

/// What a job of words is handed and lent, owned.
#[derive(Clone, PartialEq, Debug)]
struct Of {
    words: Vec<u32>,
    settings: Settings,
    classes: Vec<u8>,
    types: Vec<u8>,
    models: Vec<StoredModel>,
    prior: Vec<StoredModel>,
    blocks: Vec<u8>,
    header: Vec<u8>,
}

impl Of {
    fn job(&mut self, run: Option<&mut Run>) -> Result<Report, Refusal> {
        let Of { words, settings, classes, types, models, prior, blocks, header } = self;
        let task = WordTask { words, settings: *settings, classes, types, models, prior };
        match run {
            None => belt::job_of_words(&task, blocks, header),
            Some(run) => run.job_of_words(&task, blocks, header),
        }
    }
}

#[test]
fn rows_of_a_job_of_words() {
    // in the table's order
    let changes: Vec<(Refusal, Change)> = vec![
        (TooLarge, |of| of.words.resize(4097, 0)),
        (wrong("classes", 139, 140), |of| _ = of.classes.pop()),
        (wrong("types", 7, 6), |of| of.types.push(0)),
        (wrong("models", 5, 6), |of| _ = of.models.pop()),
        (NoSuchCode, |of| of.classes[7] = 5),
        (NoSuchCode, |of| of.settings.gm_type = 4),
        (NoSuchCode, |of| of.settings.trim = 2),
        (NoSuchCode, |of| of.settings.elect = 2),
        (NoSuchCode, |of| of.settings.set = ClassSet::from_bits(32)),
        (NoSuchCode, |of| of.types[5] = 4),
        (NoClass, |of| of.settings.set = ClassSet::from_bits(0)),
        (NoSuchSlot, |of| of.settings.reference = 0),
        (StartOver, |of| of.settings.start = 8),
        (OffGrid, |of| of.models[3] = StoredModel([1; 6])),
        (PriorOut, |of| of.prior[6].0[0] = i32::MIN),
        (NotRising, |of| of.words.swap(3, 4)),
        (NotRising, |of| of.words[9] = of.words[8]),
        (NotRising, |of| of.words[9] |= 1),
        (NotRising, |of| of.words[9] = of.words[9] & !(511 << 11) | 447 << 11),
        (NotRising, |of| of.words[9] = of.words[9] & !(511 << 2) | 511 << 2),
        (NotHeld, |of| of.classes[7] = FILM),
        (short("blocks", 1023, 1024), |of| of.blocks.truncate(1023)),
        (short("header", 124, 125), |of| of.header.truncate(124)),
        (TooFew, |of| (of.settings.trim, of.settings.set) = (1, ClassSet::of(&[METAL]))),
        (ShutterClosed, |of| of.settings.frame = 0),
        (Singular, |of| of.settings.set = ClassSet::of(&[METAL])),
    ];
    let good = Of {
        words: words(140),
        settings: Settings::fit(5, belt::GmType::Affine).start(3),
        // five words on a line have no affine fit
        classes: [vec![METAL; 5], vec![1; 135]].concat(),
        types: vec![0; 6],
        models: IDENTITIES[..6].to_vec(),
        prior: IDENTITIES.to_vec(),
        blocks: vec![0xA5; 1030],
        header: vec![0x5A; HEADER_BYTES + 2],
    };
    let mut own = good.clone();
    assert_eq!(own.job(None).map(|report| report.samples), Ok(140));
    assert_eq!((&own.blocks[1024..], own.header[0] >> 5, &own.header[125..]), (&[0xA5; 6][..], 2, &[0x5A; 2][..]));
    for form in [None, Some(Form::One), Some(Form::Two)] {
        for (at, (refusal, change)) in changes.iter().enumerate() {
            if *refusal == NotHeld && form != Some(Form::One) {
                continue;
            }
            // alone, and with each that is judged later
            for (place, (_, later)) in changes.iter().enumerate().skip(at) {
                let mut own = good.clone();
                if place > at {
                    later(&mut own);
                }
                change(&mut own);
                let mut run = form.map(|form| Run::of_parts(std::array::from_fn(|i| own.prior[i]), 1, form.code()));
                let before = (own.clone(), run);
                let answer = own.job(run.as_mut()).unwrap_err();
                assert_eq!(answer.number(), refusal.number(), "{refusal} and {}, {form:?}", changes[place].0);
                if place == at && form != Some(Form::One) {
                    assert_eq!(answer, *refusal);
                }
                assert_eq!((own, run), before);
            }
        }
    }
    let mut short = Of { prior: IDENTITIES[1..].to_vec(), ..good };
    assert_eq!(short.job(None), Err(wrong("prior", 6, 7)));
    assert!(short.job(Some(&mut Run::start(1, 1).unwrap())).is_ok());
}

#[test]
fn words_that_no_search_found_read_back() {
    let words = words(250);
    let classes: Vec<u8> = (0..250).map(|i| (i % 5) as u8).collect();
    let task = WordTask { settings: Settings::elect(8).start(2), classes: &classes, ..WordTask::new(&words) };
    let (mut blocks, mut header) = (vec![0; 1536], [0; HEADER_BYTES]);
    let report = belt::job_of_words(&task, &mut blocks, &mut header).unwrap();
    let (mut back, mut classes_back) = (vec![0; 250], vec![0; 250]);
    assert_eq!(belt::read_both(&blocks, &mut back, &mut classes_back).map(|frame| frame.number), Ok(8));
    assert_eq!((&back, &classes_back), (&words, &classes));
    let read = belt::read_global_motion_params(&header, 2, 1, &IDENTITIES).unwrap();
    assert_eq!((read.types, read.models, read.bits), (report.types, report.models, report.bits));
    let elected = belt::elect(1, &words).unwrap();
    assert_eq!((report.types[0], report.models[0], report.score), (elected.gm_type, elected.model, elected.score));
    assert_eq!(belt::job_of_words(&WordTask::new(&[]), &mut [], &mut header).map(|report| report.samples), Ok(0));
}
