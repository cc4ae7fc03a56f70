//! Scenes of known texture, drawn from any place, so that the true motion is known to the last digit.
#![allow(dead_code)]

use track::{Answer, Model};

/// Each frame is the mean of so many by so many places a pel.
const PLACES: usize = 2;
/// The sides of a frame.
const WIDTH: usize = 320;
const HEIGHT: usize = 240;

/// A motion about the middle of the frame.
#[derive(Clone, Copy, Debug)]
pub struct Motion(Model);

impl Motion {
    pub const NONE: Self = Self(Model::IDENTITY);

    pub fn pan(right: f64, down: f64) -> Self {
        Self(Model { gm_type: 1, numbers: [right, down, 1.0, 0.0, 0.0, 1.0] })
    }

    pub fn turn(zoom: f64, degrees: f64, right: f64, down: f64) -> Self {
        let (sin, cos) = degrees.to_radians().sin_cos();
        let (along, across) = (zoom * cos, zoom * sin);
        let (x, y) = ((WIDTH as f64 - 1.0) / 2.0, (HEIGHT as f64 - 1.0) / 2.0);
        let (m0, m1) = (x + right - along * x + across * y, y + down - across * x - along * y);
        Self(Model { gm_type: 2, numbers: [m0, m1, along, -across, across, along] })
    }

    /// The root of the mean square between it and a model.
    pub fn apart(&self, model: &Model, width: usize, height: usize) -> f64 {
        self.0.apart(model, width, height)
    }

    /// Where what stands at a place came from.
    fn back(&self, x: f64, y: f64) -> (f64, f64) {
        let [m0, m1, m2, m3, m4, m5] = self.0.numbers;
        let (x, y, determinant) = (x - m0, y - m1, m2 * m5 - m3 * m4);
        ((m5 * x - m3 * y) / determinant, (m2 * y - m4 * x) / determinant)
    }
}

/// Texture everywhere, or pieces on a flat belt.
pub struct Scene {
    seed: u32,
    pieces: bool,
}

/// A number from 0 to 1 for a place of a lattice.
fn lattice(seed: u32, x: i64, y: i64) -> f64 {
    let mut h = (x as u64).wrapping_mul(0x9E37_79B9_7F4A_7C15) ^ (y as u64).wrapping_mul(0xC2B2_AE3D_27D4_EB4F);
    h = (h ^ u64::from(seed) << 17 ^ h >> 29).wrapping_mul(0xBF58_476D_1CE4_E5B9);
    h = (h ^ h >> 32).wrapping_mul(0x94D0_49BB_1331_11EB);
    (h >> 40) as f64 / (1 << 24) as f64
}

/// Noise between lattice places of a width, smooth to the second degree.
fn noise(seed: u32, x: f64, y: f64, width: f64) -> f64 {
    let (x, y) = (x / width, y / width);
    let (left, top) = (x.floor(), y.floor());
    let smooth = |t: f64| t * t * t * (t * (t * 6.0 - 15.0) + 10.0);
    let (fx, fy) = (smooth(x - left), smooth(y - top));
    let at = |dx: i64, dy: i64| lattice(seed, left as i64 + dx, top as i64 + dy);
    let row = |dy: i64| at(0, dy) + (at(1, dy) - at(0, dy)) * fx;
    row(0) + (row(1) - row(0)) * fy
}

impl Scene {
    /// A belt full of load.
    pub fn load(seed: u32) -> Self {
        Self { seed: seed * 16 + 1, pieces: false }
    }

    /// A flat belt with a few pieces on it.
    pub fn pieces(seed: u32) -> Self {
        Self { seed: seed * 16 + 1, pieces: true }
    }

    fn texture(&self, x: f64, y: f64) -> f64 {
        let octaves = [(41.0, 70.0), (13.0, 60.0), (5.0, 60.0), (2.7, 30.0)];
        let sum = octaves.iter().enumerate();
        20.0 + sum.map(|(i, (width, height))| height * noise(self.seed + i as u32, x, y, *width)).sum::<f64>()
    }

    fn value(&self, x: f64, y: f64) -> f64 {
        if !self.pieces {
            return self.texture(x, y);
        }
        // discs in one cell of three
        let (column, row) = ((x / 64.0).floor(), (y / 64.0).floor());
        let chance = lattice(self.seed + 9, column as i64, row as i64);
        let from = (x - column * 64.0 - 32.0).hypot(y - row * 64.0 - 32.0);
        let inside = ((26.0 - from) / 2.0).clamp(0.0, 1.0);
        if chance < 0.4 { 90.0 + inside * (self.texture(x, y) - 90.0) } else { 90.0 }
    }

    /// The frame in which everything has gone by a motion.
    pub fn frame(&self, motion: Motion) -> Vec<u16> {
        let step = |i: usize| (i as f64 + 0.5) / PLACES as f64 - 0.5;
        let places: Vec<(f64, f64)> = (0..PLACES * PLACES).map(|i| (step(i % PLACES), step(i / PLACES))).collect();
        let pel = |i: usize| {
            let (x, y) = ((i % WIDTH) as f64, (i / WIDTH) as f64);
            let value = |(dx, dy): &(f64, f64)| {
                let (x, y) = motion.back(x + dx, y + dy);
                self.value(x, y)
            };
            rounded(places.iter().map(value).sum::<f64>() / places.len() as f64)
        };
        (0..WIDTH * HEIGHT).map(pel).collect()
    }
}

fn rounded(value: f64) -> u16 {
    value.round().clamp(0.0, 255.0) as u16
}

/// Another light.
pub fn brighter(pels: &[u16], contrast: f64, brightness: f64) -> Vec<u16> {
    pels.iter().map(|&pel| rounded(f64::from(pel) * contrast + brightness)).collect()
}

/// The mean of the pels up to so many away.
pub fn blurred(pels: &[u16], width: usize, reach: isize) -> Vec<u16> {
    let height = pels.len() / width;
    let inside = |place: isize, side: usize| place.clamp(0, side as isize - 1) as usize;
    let pel = |i: usize| {
        let (x, y) = ((i % width) as isize, (i / width) as isize);
        let near = (-reach..=reach).flat_map(|dy| (-reach..=reach).map(move |dx| (x + dx, y + dy)));
        let sum: u32 = near.map(|(x, y)| u32::from(pels[inside(y, height) * width + inside(x, width)])).sum();
        (sum / (2 * reach + 1).pow(2) as u32) as u16
    };
    (0..pels.len()).map(pel).collect()
}

/// Noise of a standard deviation, the sum of twelve even draws each.
pub fn noisy(pels: &[u16], seed: u32, deviation: f64) -> Vec<u16> {
    let mut state = seed;
    let mut draw = || {
        state = state.wrapping_mul(1_664_525).wrapping_add(1_013_904_223);
        f64::from(state >> 16) / 65_536.0
    };
    let mut noise = || (0..12).map(|_| draw()).sum::<f64>() - 6.0;
    pels.iter().map(|&pel| rounded(f64::from(pel) + deviation * noise())).collect()
}

/// Whether two answers are the same; no number of an answer is a not-a-number.
pub fn alike(one: &Answer, other: &Answer) -> bool {
    one == other
}
