//! Inputs for every kind: planes, words, numbers, models and priors.

use crate::random::Random;
use oracle::IDENTITY;

pub const MOST_SIDE: usize = 1024;
pub const MOST_SAMPLES: usize = 4096;
pub const STILL: u32 = 223 << 11 | 223 << 2;

/// Sides of a plane: most hold a few blocks, some none, and a few are long.
pub fn sides(random: &mut Random) -> (usize, usize) {
    match random.below(1000) {
        0 => (MOST_SIDE - random.below(40), MOST_SIDE - random.below(40)),
        1..=4 => (random.below(MOST_SIDE + 1), random.below(160)),
        5..=8 => (random.below(160), random.below(MOST_SIDE + 1)),
        9..=90 => (random.below(24), random.below(200)),
        91..=170 => (random.below(200), random.below(24)),
        171..=400 => (64 + random.below(192), 64 + random.below(192)),
        _ => (16 + random.below(64), 16 + random.below(64)),
    }
}

/// Values over places that follow on for ever, and how the input's place follows from the reference's.
#[derive(Debug)]
pub struct Scene {
    seed: u64,
    texture: Texture,
    motion: Motion,
}

#[derive(Clone, Copy, Debug)]
enum Texture {
    /// Noise with some bits kept, some set, and a period.
    Noise { kept: u16, set: u16, period: i64 },
    /// Noise with some bits kept, above a least value.
    Above { least: u16, kept: u16 },
    /// Waves of four lengths.
    Waves { height: f64 },
}

#[derive(Clone, Copy, Debug)]
enum Motion {
    /// Two scenes that have nothing to do with each other.
    Unrelated,
    /// Whole pels; the edges repeat or the scene goes on.
    Moved { dy: i64, dx: i64, edges: bool },
    /// Six numbers, x first.
    Affine { m: [f64; 6] },
}

impl Scene {
    pub fn random(random: &mut Random) -> Self {
        let noise = |kept, set, period| Texture::Noise { kept, set, period };
        let texture = match random.below(14) {
            0 => noise(0xffff, 0, i64::MAX),
            1 => noise(1, 0, i64::MAX),
            2 => noise(0, random.bits() as u16, i64::MAX),
            3 => noise(0x8000, 0x7fff, i64::MAX),
            4 => noise(0x03ff, 0, random.between(1, 20)),
            5 => noise(3, 500, random.between(1, 9)),
            6..=8 => noise(0x00ff, 0, i64::MAX),
            // about 8,191 and 8,192, where sums of the coarse search change their width
            9 => Texture::Above { least: random.pick(&[8188, 8190, 8191, 8192]), kept: random.pick(&[1, 3]) },
            10 => Texture::Above { least: random.pick(&[0, 1, 2]), kept: 0x1fff },
            _ => Texture::Waves { height: random.pick(&[3.0, 60.0, 900.0, 16_000.0]) },
        };
        let motion = match random.below(6) {
            0 => Motion::Unrelated,
            1 => Motion::Moved { dy: random.between(-30, 30), dx: random.between(-30, 30), edges: false },
            2 => Motion::Moved { dy: random.between(-30, 30), dx: random.between(-30, 30), edges: true },
            3 => Motion::Moved { dy: random.between(-4, 4), dx: random.between(-4, 4), edges: true },
            _ => {
                let mut near = |middle: f64, by: f64| middle + by * random.between(-1000, 1000) as f64 / 1000.0;
                let m =
                    [near(0.0, 9.0), near(0.0, 9.0), near(1.0, 0.1), near(0.0, 0.1), near(0.0, 0.1), near(1.0, 0.1)];
                Motion::Affine { m }
            }
        };
        Self { seed: random.bits(), texture, motion }
    }

    fn noise(&self, y: i64, x: i64) -> u16 {
        let mut at = Random::new(self.seed ^ (y as u64) << 32 ^ x as u32 as u64);
        at.bits() as u16
    }

    fn value(&self, y: f64, x: f64) -> u16 {
        match self.texture {
            Texture::Noise { kept, set, period } => {
                let whole = |place: f64| (place.round() as i64).rem_euclid(period);
                self.noise(whole(y), whole(x)) & kept | set
            }
            Texture::Above { least, kept } => least + (self.noise(y.round() as i64, x.round() as i64) & kept),
            Texture::Waves { height } => {
                let start = (self.seed % 1000) as f64;
                let waves = (x * 0.21 + start).sin()
                    + (y * 0.17).sin()
                    + (0.11 * x + 0.13 * y).sin()
                    + (0.31 * x - 0.23 * y).cos();
                (32_000.0 + height * waves / 2.0) as u16
            }
        }
    }

    /// The input and the reference.
    pub fn planes(&self, width: usize, height: usize) -> (Vec<u16>, Vec<u16>) {
        let places = (0..width * height).map(|i| ((i / width) as f64, (i % width) as f64));
        let reference = places.clone().map(|(y, x)| self.value(y, x)).collect();
        let held = |place: f64, side: usize| place.clamp(0.0, side as f64 - 1.0);
        let input = places.map(|(y, x)| match self.motion {
            Motion::Unrelated => self.value(y + 5000.0, x - 7000.0),
            Motion::Moved { dy, dx, edges: false } => self.value(y + dy as f64, x + dx as f64),
            Motion::Moved { dy, dx, edges: true } => {
                self.value(held(y + dy as f64, height), held(x + dx as f64, width))
            }
            Motion::Affine { m } => self.value(m[1] + m[4] * x + m[5] * y, m[0] + m[2] * x + m[3] * y),
        });
        (input.collect(), reference)
    }
}

/// A class for each sample.
pub fn classes(random: &mut Random, count: usize) -> Vec<u8> {
    (0..count).map(|_| random.below(5) as u8).collect()
}

/// The classes, and the bits of the set that names them all.
pub const LAST_CLASS: u8 = 4;
pub const ALL_CLASSES: u8 = 31;

/// A set of classes that isn't refused: of one, of some, or of all five.
pub fn class_set(random: &mut Random) -> u8 {
    match random.below(8) {
        0 => ALL_CLASSES,
        1 => 1 << random.below(5),
        _ => 1 + random.below(31) as u8,
    }
}

/// A set that may be empty or name a class that there isn't, at times both that and nothing else.
pub fn any_class_set(random: &mut Random) -> u8 {
    let set = if random.one_in(30) { 0 } else { class_set(random) };
    if random.one_in(30) { set | 32 << random.below(3) } else { set }
}

/// Up to 4,096 words of any field value, with fields that are all alike, near each other or free.
pub fn words(random: &mut Random) -> Vec<u32> {
    if random.one_in(12) {
        return words_of_a_tie(random);
    }
    let count = match random.below(24) {
        0 => 0,
        1..=8 => random.below(9),
        9..=18 => random.below(65),
        19..=22 => random.below(700),
        _ => random.below(MOST_SAMPLES + 1),
    };
    let (mut mask, mut fixed) = (3, 0);
    for (bits, shift) in [(6, 26), (6, 20), (9, 11), (9, 2)] {
        let all = (1u32 << bits) - 1;
        let (kept, set) = match random.below(6) {
            0 => (0, random.bits() as u32 & all),
            1 => (1, random.bits() as u32 & all & !1),
            2 if bits == 9 => (15, 216),
            3 => (7, random.bits() as u32 & all & !7),
            _ => (all, 0),
        };
        mask |= kept << shift;
        fixed |= set << shift;
    }
    let line = random.one_in(8);
    let word = |_| {
        let word = random.bits() as u32 & mask | fixed;
        // blocks on a diagonal: no fit of six numbers
        if line { word & !(63 << 20) | (word >> 26) << 20 } else { word }
    };
    (0..count).map(word).collect()
}

/// Words to trim: those above, or a field that moves as one, more or less evenly, with some words that move on their own.
pub fn loose_words(random: &mut Random) -> Vec<u32> {
    if random.one_in(4) {
        return words(random);
    }
    let count = match random.below(20) {
        0 => MOST_SAMPLES,
        1..=8 => 3 + random.below(8),
        _ => 3 + random.below(120),
    };
    let across = 1 + random.below(63);
    let slopes: [i64; 6] = std::array::from_fn(|_| random.between(-4, 4));
    let (loose, uneven) = (random.pick(&[0, 1, 3, 8]), random.pick(&[0, 1, 4, 12]));
    let word = |place: usize| {
        let (row, column) = ((place / across % 64) as i64, (place % across) as i64);
        let free = random.below(32) < loose;
        let mut motion = |at: usize| match free {
            true => random.below(512) as i64,
            false => {
                let even = 223 + 8 * slopes[at] + slopes[at + 1] * column / 4 + slopes[at + 2] * row / 4;
                (even + random.between(-uneven, uneven)).clamp(0, 446)
            }
        };
        (row << 26 | column << 20 | motion(0) << 11 | motion(3) << 2) as u32
    };
    (0..count).map(word).collect()
}

/// Words to elect a type of: those above, or a field of a type's motion about some middle, more or less even, with a few
/// words that are a little off. The measure of each is drawn small and large, so that energy, gate, ratio and gain come
/// out on either side; some have the floor's own energy.
pub fn words_to_elect(random: &mut Random) -> Vec<u32> {
    if random.one_in(4) {
        return loose_words(random);
    }
    if random.one_in(12) {
        // half a pel each: the energy is the floor itself
        let (v, u) = random.pick(&[(227, 223), (219, 223), (223, 227), (223, 219)]);
        return (0..4 + random.below(9) as u32).map(|column| column << 20 | v << 11 | u << 2).collect();
    }
    let count = if random.one_in(40) { MOST_SAMPLES } else { 3 + random.below(60) };
    let across = 1 + random.below(12);
    let kind = random.below(6);
    let size = random.pick(&[0.5, 1.0, 3.0, 10.0]);
    let mut near = |by: f64| by * size * random.between(-1000, 1000) as f64 / 1000.0;
    // in eighths: the shift, and what a block further right and further down adds to u and to v
    let (shift, right, down) = ([near(6.0), near(6.0)], [near(1.0), near(1.0)], [near(1.0), near(1.0)]);
    let (right, down) = match kind {
        0 => ([0.0; 2], [0.0; 2]),
        1 | 2 => (right, [-right[1], right[0]]),
        _ => (right, down),
    };
    let (loose, uneven) = (random.pick(&[0, 0, 1, 3]), random.pick(&[0, 1, 1, 2, 5]));
    let middle = (across as f64 / 2.0, (count / across) as f64 / 2.0);
    let word = |place: usize| {
        let (row, column) = (place / across % 64, place % across);
        let off = if random.below(32) < loose { random.between(-40, 40) } else { 0 };
        let mut motion = |at: usize| {
            let even = shift[at] + right[at] * (column as f64 - middle.0) + down[at] * (row as f64 - middle.1);
            (223 + even as i64 + off + random.between(-uneven, uneven)).clamp(0, 446) as u32
        };
        (row as u32) << 26 | (column as u32) << 20 | motion(1) << 11 | motion(0) << 2
    };
    (0..count).map(word).collect()
}

/// Words whose sums of x·x and x·y are equal, so that an affine fit has two pivots of one magnitude to choose from:
/// a block left of the diagonal, one right of it, as often as makes up for it, and blocks on the diagonal.
fn words_of_a_tie(random: &mut Random) -> Vec<u32> {
    let (left, right) = (random.below(6), 1 + random.below(6));
    let weight = |column: usize| 32 * column + 15;
    let mut places = vec![(left + 1, left); weight(right)];
    places.extend(vec![(right - 1, right); weight(left)]);
    for _ in 0..random.below(40) {
        let place = random.below(64);
        places.push((place, place));
    }
    let word = |(row, column): (usize, usize)| (row << 26 | column << 20) as u32 | random.bits() as u32 & 0x000f_ffff;
    places.into_iter().map(word).collect()
}

/// Samples of any four numbers: those of words with some number put in another's place, numbers of every size, sums
/// that cancel or round, places that are equal, on a line, or so near each other that a pivot is about 1e-9.
pub fn samples(random: &mut Random) -> Vec<[f64; 4]> {
    let count = match random.below(60) {
        0 => MOST_SAMPLES,
        1..=20 => random.below(5),
        21..=40 => 3 + random.below(20),
        _ => random.below(200),
    };
    let form = random.below(9);
    let steep = 1.0 + random.below(9) as f64;
    // the square of the distance, times the count, is the last pivot
    let near = random.pick(&[1e-7, 1e-6, 1e-5, 3e-5, 1e-4]) * (1.0 + random.below(1000) as f64 / 1000.0);
    let place = random.below(3) as f64 * 7.5;
    let mut sample = |i: usize| {
        let plain = |random: &mut Random| random.between(-100_000, 100_000) as f64 / 97.0;
        let sign = if i % 2 == 0 { 1.0 } else { -1.0 };
        let huge = random.pick(&[1e16, 1e300, -1e300, 1e8]);
        let mut numbers = std::array::from_fn(|_| plain(random));
        match form {
            0 => numbers = std::array::from_fn(|_| odd(random)),
            1 => numbers = oracle::sample_of(random.bits() as u32),
            2 => numbers = numbers.map(|number| sign * (number + huge)),
            3 => numbers = numbers.map(|number| if random.one_in(3) { huge } else { number }),
            4 => (numbers[0], numbers[1]) = (place, place),
            5 => numbers[1] = steep * numbers[0],
            6 => (numbers[0], numbers[1]) = (place + near * random.between(-1, 1) as f64, place + near * sign),
            7 => numbers = numbers.map(|number| number * 1e-160),
            _ => {}
        }
        numbers
    };
    let mut made: Vec<[f64; 4]> = (0..count).map(&mut sample).collect();
    if count > 0 && random.one_in(3) {
        made[random.below(count)][random.below(4)] = odd(random);
    }
    made
}

/// Samples to trim: those above, or those of words to trim, of any size, some with a number whose square or whose
/// square's sum is infinite, vanishes or isn't a number.
pub fn loose_samples(random: &mut Random) -> Vec<[f64; 4]> {
    if random.one_in(3) {
        return samples(random);
    }
    let size = random.pick(&[1.0, 1.1, 1.1, 0.3, 1.0 / 97.0, 1e-160, 1e60, 1e140]);
    let words = loose_words(random);
    let mut made: Vec<_> = words.iter().map(|&word| oracle::sample_of(word).map(|number| size * number)).collect();
    let extreme =
        [1e150, -1e150, 1e154, -1.4e154, 1e155, 1e200, f64::MAX, f64::INFINITY, f64::NAN, 5e-324, -2e-308, 1e-170];
    if !made.is_empty() && random.one_in(3) {
        for _ in 0..1 + random.below(3) {
            let (place, number) = (random.below(made.len()), random.below(4));
            made[place][number] = random.pick(&extreme);
        }
    }
    made
}

/// Samples to elect a type of: those to trim, or those of words to elect of, of any size, some about where squares become
/// infinite, where energy and errors may be so while every residual is finite.
pub fn samples_to_elect(random: &mut Random) -> Vec<[f64; 4]> {
    if random.one_in(3) {
        return loose_samples(random);
    }
    let words = words_to_elect(random);
    let (size, far) = (random.pick(&[1.0, 1.1, 0.9, 0.3, 1e3]), random.one_in(8));
    let sign = |i: usize| if i % 2 == 0 { 1.2e154 } else { -1.2e154 };
    let sample = |(i, &word): (usize, &u32)| match (far, oracle::sample_of(word).map(|number| size * number)) {
        (true, [x, y, _, v]) => [x, y, sign(i), v],
        (false, numbers) => numbers,
    };
    let mut made: Vec<_> = words.iter().enumerate().map(sample).collect();
    if !made.is_empty() && random.one_in(8) {
        made[random.below(words.len())][random.below(4)] = odd(random);
    }
    made
}

/// A number that sums and products treat in a way of their own.
fn odd(random: &mut Random) -> f64 {
    let special = [
        f64::NAN,
        f64::INFINITY,
        f64::NEG_INFINITY,
        0.0,
        -0.0,
        5e-324,
        -5e-324,
        2e-308,
        f64::MIN_POSITIVE,
        1e-300,
        -1e-300,
        1e300,
        -1e300,
        f64::MAX,
        1e-9,
    ];
    if random.one_in(3) { float(random) } else { random.pick(&special) }
}

/// Words that rise by place, in range, with class bits zero.
pub fn rising_words(random: &mut Random) -> Vec<u32> {
    let most = random.pick(&[1, 3, 130, 130, 300, 300, MOST_SAMPLES]);
    let chance = random.pick(&[1, 2, 30]);
    let places = (0..MOST_SAMPLES as u32).filter(|_| random.one_in(chance)).collect::<Vec<_>>();
    let word = |place| {
        let motion = |random: &mut Random| random.below(447) as u32;
        place << 20 | motion(random) << 11 | motion(random) << 2
    };
    places.into_iter().take(most).map(word).collect()
}

/// A binary64: about one, large, any bits, or special.
pub fn float(random: &mut Random) -> f64 {
    let special =
        [f64::NAN, f64::INFINITY, f64::NEG_INFINITY, 0.0, -0.0, 1e300, -32768.0, 32767.99999, f64::MIN_POSITIVE];
    let small = random.between(-65_536 * 4, 65_536 * 4) as f64;
    match random.below(6) {
        0 => f64::from_bits(random.bits()),
        1 => random.pick(&special),
        // halves of a step, so that rounding has ties
        2 => small / 131_072.0,
        3 => small * 16.0,
        4 => 1.0 + small / 65_536.0 / 64.0,
        _ => small / 65_536.0,
    }
}

/// A binary64 to take the root of: any bits, a subnormal, a power of two, a square, a sum of two squares, or one of their
/// neighbours, of either sign; or special.
pub fn radicand(random: &mut Random) -> f64 {
    let special = [0.0, -0.0, f64::INFINITY, f64::NEG_INFINITY, f64::NAN, f64::MAX, f64::MIN_POSITIVE];
    let digits = random.below(54) as u32;
    let root = (random.bits() >> 11 >> (53 - digits)) as f64;
    let x = match random.below(8) {
        0 => return random.pick(&special),
        1 => return f64::from_bits(random.bits()),
        2 => f64::from_bits(random.bits() >> 12 >> random.below(52)),
        3 => f64::from_bits((random.below(2047) as u64) << 52),
        4 => root * root,
        5 => (root + 0.5) * (root + 0.5),
        6 => root * root + float(random) * float(random),
        _ => f64::from_bits(random.bits() >> 1),
    };
    let near = f64::from_bits(x.to_bits().wrapping_add_signed(random.between(-2, 2)));
    if random.one_in(16) { -near } else { near }
}

/// Any i32, with a share of small ones, ends, and halves of the grid's steps.
pub fn number(random: &mut Random) -> i32 {
    let centre = random.pick(&[0, 0, 65_536]);
    let ordinal = match random.below(4) {
        0 => random.between(-3, 3),
        1 => random.pick(&[-4096, -512, -256, 256, 512, 4096]) + random.between(-2, 2),
        _ => random.between(-4200, 4200),
    };
    match random.below(6) {
        0 => random.bits() as i32,
        1 => random.pick(&[i32::MIN, i32::MIN + 1, i32::MAX - 1, i32::MAX, 0, 1, -1, 65_535, 65_536, 65_537]),
        2 => centre + random.between(-20, 20) as i32,
        _ => {
            let step = random.pick(&[2, 1024, 8192, 16_384]);
            (ordinal * step + step / 2 * random.between(0, 1) + random.between(-1, 1)) as i32 + centre
        }
    }
}

/// A model of a type as a header stores it: carried slots on the grid, the others as the type has them.
pub fn stored_model(random: &mut Random, kind: u8, high: bool) -> [i32; 6] {
    let carried: &[usize] = [&[][..], &[0, 1], &[0, 1, 2, 3], &[0, 1, 2, 3, 4, 5]][usize::from(kind)];
    let mut model = IDENTITY;
    for &slot in carried {
        model[slot] = oracle::quantize_global_param(kind, high, slot, number(random));
    }
    if kind == 2 {
        (model[4], model[5]) = (-model[3], model[2]);
    }
    model
}

/// A prior in range, about the model, at an end, at the identity or anywhere.
pub fn prior(random: &mut Random, model: &[i32; 6]) -> [i32; 6] {
    let far = random.below(5);
    std::array::from_fn(|slot| {
        let reach = if slot < 2 { 4_194_304 } else { 8_192 };
        let (low, high) = (IDENTITY[slot] - reach, IDENTITY[slot] + reach);
        let number = match far {
            0 => IDENTITY[slot],
            1 => random.pick(&[low, low + 1, high - 1, high]),
            2 => model[slot] + random.between(-9, 9) as i32,
            3 => model[slot] + random.between(-70_000, 70_000) as i32,
            _ => random.between(i64::from(low), i64::from(high)) as i32,
        };
        number.clamp(low, high)
    })
}
