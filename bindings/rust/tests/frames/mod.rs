//! Made-up frame pairs, and the memory around a job's buffers.
#![allow(dead_code)] // each test file uses a part

use belt::{BLOCK_BYTES, Buffers, GmType, IDENTITIES, Settings, StoredModel, Task, sample_count};

/// Values by position alone, without a pattern.
fn noise(y: i64, x: i64) -> u16 {
    let mut h = (y as u64).wrapping_mul(0x9E37_79B9_7F4A_7C15) ^ (x as u64).wrapping_mul(0xC2B2_AE3D_27D4_EB4F);
    h = (h ^ h >> 29).wrapping_mul(0xBF58_476D_1CE4_E5B9);
    (h >> 40) as u16 & 1023
}

pub fn noisy_plane(width: usize, height: usize) -> Vec<u16> {
    (0..width * height).map(|i| noise((i / width) as i64, (i % width) as i64)).collect()
}

/// The plane moved by whole pels, its edges repeated: each pel is the plane's at (y + dy, x + dx).
pub fn moved(plane: &[u16], width: usize, height: usize, dy: i64, dx: i64) -> Vec<u16> {
    let held = |at: usize, by: i64, side: usize| (at as i64 + by).clamp(0, side as i64 - 1) as usize;
    (0..width * height).map(|i| plane[held(i / width, dy, height) * width + held(i % width, dx, width)]).collect()
}

/// A smooth texture, seen from where the six numbers of an affine motion put each pel.
pub fn smooth_plane(width: usize, height: usize, motion: [f64; 6]) -> Vec<u16> {
    let value = |y: f64, x: f64| {
        let waves = (x * 0.21).sin() + (y * 0.17).sin() + (0.11 * x + 0.13 * y).sin() + (0.31 * x - 0.23 * y).cos();
        (2000.0 + 400.0 * waves) as u16
    };
    let pel = |i: usize| {
        let (y, x) = ((i / width) as f64, (i % width) as f64);
        let [m0, m1, m2, m3, m4, m5] = motion;
        value(m1 + m4 * x + m5 * y, m0 + m2 * x + m3 * y)
    };
    (0..width * height).map(pel).collect()
}

/// Everything that a job is handed, owned.
#[derive(Clone)]
pub struct Handed {
    pub input: Vec<u16>,
    pub reference: Vec<u16>,
    pub width: usize,
    pub height: usize,
    pub settings: Settings,
    pub classes: Vec<u8>,
    pub types: Vec<u8>,
    pub models: Vec<StoredModel>,
    pub prior: Vec<StoredModel>,
}

impl Handed {
    /// A job that no row refuses, with the six other models at the identity.
    pub fn new(input: Vec<u16>, reference: Vec<u16>, width: usize, height: usize, gm_type: u8) -> Self {
        let mut settings = Settings::fit(4660, GmType::Translation).reference(3).start(5);
        settings.gm_type = gm_type;
        Self {
            input,
            reference,
            width,
            height,
            settings,
            classes: (0..sample_count(width, height)).map(|i| (i % 5) as u8).collect(),
            types: vec![0; 6],
            models: IDENTITIES[..6].to_vec(),
            prior: IDENTITIES.to_vec(),
        }
    }

    pub fn task(&self) -> Task<'_> {
        Task {
            input: &self.input,
            reference: &self.reference,
            width: self.width,
            height: self.height,
            settings: self.settings,
            classes: &self.classes,
            types: &self.types,
            models: &self.models,
            prior: &self.prior,
        }
    }
}

/// The guards behind each buffer.
const BEHIND: usize = 37;

/// A job's buffers full of a pattern, with guards behind what the job needs.
pub fn guarded(width: usize, height: usize) -> Buffers {
    let needed = Buffers::new(width, height);
    Buffers {
        input_half: vec![0xA55A; needed.input_half.len() + BEHIND],
        ref_half: vec![0x5AA5; needed.ref_half.len() + BEHIND],
        words: vec![0xA5A5_5A5A; needed.words.len() + BEHIND],
        blocks: vec![0xA5; needed.blocks.len() + BLOCK_BYTES + BEHIND],
        header: vec![0x5A; needed.header.len() + BEHIND],
    }
}
