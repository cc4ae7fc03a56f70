//! The lists for `worked_fit`: fits, quantized models and scores of lists of words; systems for `solve_linear`;
//! grid numbers; lists of words in several orders; lists of samples of any numbers; fits after trimming. The arguments are
//! the six files to write.
//! A list of words is remade from a seed: each word of the generator, its bits outside a mask cleared, with fixed bits set.
//! Of a list of samples some are written out, and come round again up to its count.

use oracle::SINGULAR;
use oracle::list::{Lcg, List, MOST_SAMPLES, across, loose_words, tilted_words};
use std::{env, io};

const SEED: u32 = 6;
const TOO_MANY: u32 = 1;
const BAD_CODE: u32 = 4;

/// Counts that every shape of list is tried with, and how many random ones besides.
const COUNTS: [usize; 16] = [0, 1, 2, 3, 4, 5, 6, 7, 8, 9, 16, 33, 125, 500, 1000, MOST_SAMPLES];
const RANDOM_COUNTS: usize = 180;

/// Masks of a word's fields: row, column, stored v and u, class.
const ROW: u32 = 0xfc00_0000;
const COL: u32 = 0x03f0_0000;
const PLACE: u32 = ROW | COL;
const V: u32 = 0x000f_f800;
const U: u32 = 0x0000_07fc;
const STILL: u32 = 223 << 11 | 223 << 2;

/// Mask and fixed bits: what a list's words have in common.
const SHAPES: [(u32, u32); 18] = [
    (!0, 0),
    // small motions about zero
    (PLACE | 63 << 11 | 63 << 2, 192 << 11 | 192 << 2),
    (PLACE | 3 << 11 | 3 << 2, 221 << 11 | 221 << 2),
    // one row, one column, one block
    (!ROW, 17 << 26),
    (!COL, 40 << 20),
    (!PLACE, 63 << 26 | 1 << 20),
    // two rows, two columns, two blocks apart
    (!ROW | 1 << 26, 0),
    (!COL | 1 << 20, 63 << 20),
    (!PLACE | 1 << 26, 0),
    // equal motions: none, the ends of the range, beyond it
    (PLACE | 3, STILL),
    (PLACE, 446 << 11),
    (PLACE, 446 << 2 | 1),
    (PLACE, V | U),
    // stored motions over 446 in every word
    (PLACE | 31 << 11 | 31 << 2, 480 << 11 | 480 << 2),
    // one word repeated: all fields at either end, and one in between
    (0, 0),
    (0, !0),
    (0, 0x0006_fb7c),
    // corners of the plane only
    (1 << 26 | 1 << 31 | 1 << 20 | 1 << 25 | V | U, 0),
];

fn main() -> io::Result<()> {
    let mut paths = env::args().skip(1);
    let mut path = || {
        paths.next().expect("the arguments are the files of fits, systems, grid numbers, orders, samples and trimming")
    };
    fits().write(path())?;
    systems().write(path())?;
    grid_numbers().write(path())?;
    orders().write(path())?;
    samples().write(path())?;
    trimmed().write(path())
}

fn fits() -> List {
    let mut lcg = Lcg(SEED);
    let mut cases = Vec::new();
    for (mask, fixed) in SHAPES {
        let random = (0..RANDOM_COUNTS).map(|_| usize::from(lcg.below(64))).collect::<Vec<_>>();
        for count in COUNTS.into_iter().chain(random) {
            cases.push((lcg.word(), count, mask, fixed));
        }
    }
    let mut list = List::default();
    list.push(cases.len() as u32);
    for (case, &(seed, count, mask, fixed)) in cases.iter().enumerate() {
        list.push(seed);
        list.push(count as u32);
        list.push(mask);
        list.push(fixed);
        let words = Lcg(seed).words(count).into_iter().map(|word| word & mask | fixed);
        let samples = words.map(oracle::sample_of).collect::<Vec<_>>();
        for kind in 1..=3 {
            push_fit(&mut list, kind, case % 2 == 1, &samples);
        }
    }
    list
}

/// A refusal or 0, the values that the kind carries, the quantized model and its score.
fn push_fit(list: &mut List, kind: u8, high: bool, samples: &[[f64; 4]]) {
    let carried = [2, 4, 6][usize::from(kind) - 1];
    let Some(model) = oracle::fit(kind, samples) else {
        push_refusal(list, carried, SINGULAR);
        return;
    };
    list.push(0);
    model[..carried].iter().for_each(|&value| list.push_float(value));
    let params = oracle::quantize_model(&model, kind, high, samples);
    params.iter().for_each(|&param| list.push_signed(param));
    list.push_float(oracle::score(&params, samples));
}

/// A refusal, and zeros for all that follows it.
fn push_refusal(list: &mut List, carried: usize, refusal: u32) {
    list.push(refusal);
    (0..carried).for_each(|_| list.push_float(0.0));
    (0..6).for_each(|_| list.push(0));
    list.push_float(0.0);
}

/// The same words in several orders, written out, each order with either flag. The fits of one list agree; scores needn't.
fn orders() -> List {
    let forwards = [tilted_words(), Lcg(SEED).words(MOST_SAMPLES), Lcg(SEED).words(125)];
    let cases = forwards.into_iter().flat_map(|words| {
        let backwards = words.iter().rev().copied().collect::<Vec<_>>();
        let mut sorted = words.clone();
        sorted.sort_unstable_by_key(|word| word.rotate_left(16));
        [words, backwards, sorted].into_iter().flat_map(|order| [order.clone(), order])
    });
    let cases = cases.collect::<Vec<_>>();
    let mut list = List::default();
    list.push(cases.len() as u32);
    for (case, words) in cases.iter().enumerate() {
        list.push(words.len() as u32);
        words.iter().for_each(|&word| list.push(word));
        let samples = words.iter().map(|&word| oracle::sample_of(word)).collect::<Vec<_>>();
        for kind in 1..=3 {
            push_fit(&mut list, kind, case % 2 == 1, &samples);
        }
    }
    list
}

/// Fits after trimming. For each: the words, a type and a flag, at times no such codes; the refusal of the fit and the
/// samples that it used, and the values that the type carries; the refusal of the quantized model, the samples, the model.
fn trimmed() -> List {
    let lcg = &mut Lcg(SEED);
    let mut cases: Vec<(Vec<u32>, u8, u8)> = Vec::new();
    // a residual is dropped; too few would stay; exactly three medians; exactly 1.0, and just above it
    for eighths in [
        &[0, 0, 0, 0, 80][..],
        &[0, 0, 0, 80, -40],
        &[0, 0, 0, 80],
        &[8, -8, 0, 0, 0, 0, 0, 0],
        &[9, -9, 0, 0, 0, 0, 0, 0],
        &[-27, 52, 15, 21, 7, -2],
    ] {
        cases.extend([0, 1].map(|flag| (across(eighths), 1, flag)));
    }
    // the samples that stay lie in one row: a second fit that is refused
    let mut lined = across(&[0; 10]);
    lined
        .extend([423, 23, 423, 23].into_iter().zip(3..).map(|(u, column)| 1 << 26 | column << 20 | 223 << 11 | u << 2));
    cases.extend([1, 2, 3].map(|kind| (lined.clone(), kind, 1)));
    for kind in 1..=3 {
        let least = oracle::least_samples(kind);
        // one sample less than the least, the least, and one place
        cases.push((across(&vec![0; least - 1]), kind, 1));
        cases.push((across(&vec![5; least]), kind, 1));
        cases.push((vec![across(&[3])[0]; least], kind, 1));
        for count in (least..least + 9).chain([16, 25, 60, 125]) {
            for loose in [0, 3, 9] {
                cases.push((loose_words(lcg, count, loose), kind, lcg.below(2) as u8));
            }
        }
        cases.push((loose_words(lcg, MOST_SAMPLES, 7), kind, 1));
        cases.push((Lcg(SEED).words(60), kind, 0));
    }
    // rows 1, 4 and 15, also two at once
    let many = vec![across(&[0])[0]; MOST_SAMPLES + 1];
    cases.extend([(many.clone(), 1, 0), (many, 0, 2), (Vec::new(), 0, 0), (Vec::new(), 4, 1), (Vec::new(), 1, 2)]);
    cases.extend([1, 2, 3].map(|kind| (Vec::new(), kind, 0)));
    let mut list = List::default();
    list.push(cases.len() as u32);
    for (words, kind, flag) in &cases {
        push_trimmed(&mut list, words, *kind, *flag);
    }
    list
}

fn push_trimmed(list: &mut List, words: &[u32], kind: u8, flag: u8) {
    list.push(words.len() as u32);
    words.iter().for_each(|&word| list.push(word));
    list.push(u32::from(kind));
    list.push(u32::from(flag));
    push_after_trimming(list, kind, flag, &words.iter().map(|&word| oracle::sample_of(word)).collect::<Vec<_>>());
}

/// The fit after trimming and its quantized model: of each the refusal, the samples used and the numbers.
fn push_after_trimming(list: &mut List, kind: u8, flag: u8, samples: &[[f64; 4]]) {
    let answer = |flag: u8| match samples.len() {
        count if count > MOST_SAMPLES => Err(TOO_MANY),
        _ if !(1..=3).contains(&kind) || flag > 1 => Err(BAD_CODE),
        _ => oracle::trimmed_or_row(kind, flag == 1, samples),
    };
    // the values that the replay reads for a code: two for no type and a translation, four, six
    let carried = [2, 2, 4, 6, 6][usize::from(kind)];
    let (fit, model) = (answer(0), answer(flag));
    list.push(fit.map_or_else(|refusal| refusal, |_| 0));
    list.push(fit.map_or(0, |trimmed| trimmed.used as u32));
    fit.map_or([0.0; 6], |trimmed| trimmed.model)[..carried].iter().for_each(|&value| list.push_float(value));
    list.push(model.map_or_else(|refusal| refusal, |_| 0));
    list.push(model.map_or(0, |trimmed| trimmed.used as u32));
    model.map_or([0; 6], |trimmed| trimmed.params).iter().for_each(|&param| list.push_signed(param));
}

/// Numbers that sums and products treat in a way of their own.
const ODD: [f64; 14] = [
    f64::NAN,
    f64::INFINITY,
    f64::NEG_INFINITY,
    -0.0,
    0.0,
    5e-324,
    -5e-324,
    2e-308,
    f64::MIN_POSITIVE,
    1e-300,
    -1e-300,
    1e300,
    -1e300,
    f64::MAX,
];

/// Samples of any four numbers; the count of each case, and those of its samples that are written out.
fn samples() -> List {
    const EACH: usize = 12;
    let lcg = &mut Lcg(SEED);
    let mut cases: Vec<(usize, Vec<[f64; 4]>)> = Vec::new();
    // an odd number in each place of one sample among others
    for place in 0..4 {
        for value in ODD {
            let mut made = plain_samples(lcg, 5);
            made[1][place] = value;
            cases.push((made.len(), made));
        }
    }
    // short lists and long ones of every flavour
    for flavour in 0..FLAVOURS {
        let random = (0..EACH).map(|_| 3 + usize::from(lcg.below(60))).collect::<Vec<_>>();
        for count in (0..=8).chain([MOST_SAMPLES, MOST_SAMPLES + 1]).chain(random) {
            let written = if count < 64 { count } else { 7 };
            cases.push((count, free_samples(lcg, flavour, written)));
        }
    }
    // pivots on both sides of 1e-9: so many corners of a small square, about the origin by single steps of a number, and
    // about another place, where the sums round
    for steps in -4..=4i32 {
        for (place, corners, squares) in
            [(0.0, 2, 2.0), (0.0, 4, 4.0), (0.0, 4, 2.0), (7.5, 4, 16.0 / 450.0), (7.5, 4, 4.0 / 225.0)]
        {
            let near = (1e-9f64 / squares).sqrt();
            let side = match place {
                0.0 => f64::from_bits(near.to_bits().wrapping_add_signed(i64::from(steps))),
                _ => near * (1.0 + f64::from(steps) * 1e-4),
            };
            let corner = [[side, 0.0], [-side, 0.0], [0.0, side], [0.0, -side]];
            let made = corner[..corners].iter().map(|at| [place + at[0], place + at[1], small(lcg), small(lcg)]);
            cases.push((corners, made.collect()));
        }
    }
    // a residual that is large, one whose square is infinite, one that is not-a-number, and too few with one such
    for (count, u) in [(4, 1e150), (4, 1e200), (4, f64::NAN), (3, f64::NAN)] {
        let mut made = vec![[0.0; 4]; count];
        made[0][2] = u;
        cases.push((count, made));
    }
    // samples that lie on a model but for a few, which the trim drops, about the least lists
    for count in (4..=12).chain([16, 25, 60]) {
        for loose in [0, 3, 9] {
            let words = loose_words(lcg, count, loose);
            cases.push((count, words.iter().map(|&word| oracle::sample_of(word).map(|number| 1.1 * number)).collect()));
        }
    }
    let mut list = List::default();
    list.push(cases.len() as u32);
    for (case, (count, written)) in cases.iter().enumerate() {
        list.push(*count as u32);
        list.push(written.len() as u32);
        written.iter().flatten().for_each(|&number| list.push_float(number));
        let samples = written.iter().cycle().take(*count).copied().collect::<Vec<_>>();
        for kind in 1..=3 {
            match samples.len() {
                0..=MOST_SAMPLES => push_fit(&mut list, kind, case % 2 == 1, &samples),
                _ => push_refusal(&mut list, [2, 4, 6][usize::from(kind) - 1], TOO_MANY),
            }
            push_after_trimming(&mut list, kind, (case % 2) as u8, &samples);
        }
    }
    list
}

/// A number whose sums and products round.
fn small(lcg: &mut Lcg) -> f64 {
    (f64::from(lcg.step()) - 32768.0) / 97.0
}

fn plain_samples(lcg: &mut Lcg, count: usize) -> Vec<[f64; 4]> {
    (0..count).map(|_| std::array::from_fn(|_| small(lcg))).collect()
}

const FLAVOURS: usize = 8;

/// Samples that are plain, of any bits, odd in every number; sums that cancel; places that are equal, on a line, or so
/// near each other that a pivot is about 1e-9; tiny numbers.
fn free_samples(lcg: &mut Lcg, flavour: usize, count: usize) -> Vec<[f64; 4]> {
    let mut made = plain_samples(lcg, count);
    let huge = [1e16, 1e300, 1e8][usize::from(lcg.below(3))];
    let near = f64::from(1 + lcg.below(999)) * 1e-7;
    for (i, numbers) in made.iter_mut().enumerate() {
        let sign = if i % 2 == 0 { 1.0 } else { -1.0 };
        match flavour {
            0 => {}
            1 => *numbers = numbers.map(|_| f64::from_bits(u64::from(lcg.word()) << 32 | u64::from(lcg.word()))),
            2 => *numbers = numbers.map(|_| ODD[usize::from(lcg.below(ODD.len() as u16))]),
            3 => *numbers = numbers.map(|number| sign * huge + number),
            4 => (numbers[0], numbers[1]) = (7.5, -23.5),
            5 => numbers[1] = 3.0 * numbers[0],
            6 => (numbers[0], numbers[1]) = (near * (f64::from(lcg.below(3)) - 1.0), near * sign),
            _ => *numbers = numbers.map(|number| number * 1e-160),
        }
    }
    made
}

/// Entries that make pivots tie, vanish or lie about 1e-9, and entries that aren't finite.
fn entries(lcg: &mut Lcg, flavour: u16) -> f64 {
    let small = f64::from(lcg.below(7)) - 3.0;
    let near = f64::from_bits((1e-9f64).to_bits() - 3 + u64::from(lcg.below(7)));
    let signed = |value: f64, turn: u16| if turn == 0 { -value } else { value };
    match flavour {
        0 => small,
        1 => signed(near, lcg.below(2)),
        2 => small * signed(near, lcg.below(2)),
        3 => (f64::from(lcg.step()) - 32768.0) / 8.0,
        4 => [f64::NAN, f64::INFINITY, f64::NEG_INFINITY, 0.0, -0.0, 1.0, -1.0, 1e300][usize::from(lcg.below(8))],
        5 => f64::from_bits(u64::from(lcg.word()) << 32 | u64::from(lcg.word())),
        _ => {
            if lcg.below(4) == 0 {
                small
            } else {
                0.0
            }
        }
    }
}

fn systems() -> List {
    const FLAVOURS: u16 = 7;
    const EACH: u32 = 90;
    let mut lcg = Lcg(SEED);
    let mut list = List::default();
    list.push(2 * u32::from(FLAVOURS) * EACH);
    for size in [3, 4] {
        for flavour in 0..FLAVOURS {
            for _ in 0..EACH {
                push_system(&mut list, &mut lcg, size, flavour);
            }
        }
    }
    list
}

/// The size, sixteen entries row by row, four right sides, a refusal or 0, four unknowns.
/// What a system of three doesn't use is there too, and is 1e9.
fn push_system(list: &mut List, lcg: &mut Lcg, size: usize, flavour: u16) {
    let used = |lcg: &mut Lcg, is: bool| if is { entries(lcg, flavour) } else { 1e9 };
    let a: [[f64; 4]; 4] = std::array::from_fn(|row| std::array::from_fn(|col| used(lcg, row < size && col < size)));
    let b: [f64; 4] = std::array::from_fn(|row| used(lcg, row < size));
    let x = if size == 4 {
        oracle::solve4(a, b)
    } else {
        let a3 = std::array::from_fn(|row| std::array::from_fn(|col| a[row][col]));
        oracle::solve3(a3, std::array::from_fn(|row| b[row])).map(|x| [x[0], x[1], x[2], 0.0])
    };
    list.push(size as u32);
    a.iter().flatten().chain(&b).for_each(|&value| list.push_float(value));
    list.push(if x.is_none() { SINGULAR } else { 0 });
    x.unwrap_or([0.0; 4]).iter().for_each(|&value| list.push_float(value));
}

/// Ties, limits and specials with both neighbours and both signs, and random bits.
fn grid_numbers() -> List {
    const SCALE: f64 = 65536.0;
    const RANDOM: usize = 2000;
    let mut lcg = Lcg(SEED);
    let mut middles = vec![0.0, f64::MIN_POSITIVE, f64::from_bits(1), f64::MAX, f64::INFINITY, f64::NAN];
    for whole in (0..100u32).chain([4095, 65535, 65536, 1 << 20, (1 << 31) - 2, (1 << 31) - 1, 1 << 31, u32::MAX]) {
        middles.extend([f64::from(whole) / SCALE, (f64::from(whole) + 0.5) / SCALE]);
    }
    middles.extend((20..1024).step_by(7).map(|power| 2f64.powi(power)));
    middles.extend((0..RANDOM).map(|_| f64::from_bits(u64::from(lcg.word()) << 32 | u64::from(lcg.word()))));
    middles.extend((0..RANDOM).map(|_| f64::from(lcg.word()) / 8.0 / SCALE));
    let mut list = List::default();
    let neighbours = |x: f64| [x.next_down(), x, x.next_up()].into_iter().flat_map(|y| [y, -y]);
    let values = middles.into_iter().flat_map(neighbours).collect::<Vec<_>>();
    list.push(values.len() as u32);
    for value in values {
        list.push_float(value);
        list.push_signed(oracle::grid_number(value));
    }
    list
}
