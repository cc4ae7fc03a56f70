//! What is measured on: pairs of planes and models, from fixed seeds.

use belt::{ClassSet, FIBRE, METAL, RIGID_PLASTIC, UNSORTED};
use oracle::list::Lcg;

/// Pels of ten bits.
const TEN_BITS: u16 = 0x3ff;

#[derive(Clone, Copy, PartialEq)]
pub enum Scene {
    /// Two planes that have nothing to do with each other.
    Noise,
    /// A texture, and the same texture moved by a part of a pel, with a little noise.
    Textured,
    /// A texture twice.
    Static,
}

impl Scene {
    pub const ALL: [Scene; 3] = [Scene::Noise, Scene::Textured, Scene::Static];

    pub fn name(self) -> &'static str {
        match self {
            Scene::Noise => "noise",
            Scene::Textured => "textured",
            Scene::Static => "static",
        }
    }

    /// The input and the reference of a picture; each number has another part of the texture, or other noise.
    pub fn pair(self, width: usize, height: usize, picture: usize) -> (Vec<u16>, Vec<u16>) {
        match self {
            Scene::Noise => {
                let mut lcg = Lcg(1 + picture as u32);
                (lcg.plane(width, height, TEN_BITS), lcg.plane(width, height, TEN_BITS))
            }
            Scene::Textured => {
                (texture(width, height, picture, (43, -29), 3), texture(width, height, picture, (0, 0), 3))
            }
            Scene::Static => {
                let plane = texture(width, height, picture, (0, 0), 0);
                (plane.clone(), plane)
            }
        }
    }
}

/// The lattice of a texture: a value for each pair of numbers.
fn lattice(x: i32, y: i32) -> i32 {
    let mut lcg = Lcg((x as u32).wrapping_mul(0x9e37_79b1) ^ (y as u32).wrapping_mul(0x85eb_ca6b));
    lcg.step();
    i32::from(lcg.step() & 0xff)
}

/// A lattice with cells of `cell` eighths, blended between its points.
fn octave(x: i32, y: i32, cell: i32) -> i32 {
    let (i, j) = (x.div_euclid(cell), y.div_euclid(cell));
    let (f, g) = (x.rem_euclid(cell), y.rem_euclid(cell));
    let row = |j: i32| lattice(i, j) * (cell - f) + lattice(i + 1, j) * f;
    (row(j) * (cell - g) + row(j + 1) * g) / (cell * cell)
}

/// How many pictures a search of these sides is measured on, one after the other: a processor learns the branches of
/// a small one that it meets again and again.
pub fn pictures(width: usize, height: usize) -> usize {
    match oracle::sample_count(width, height) {
        0..=64 => 200,
        _ => 1,
    }
}

/// Pictures lie so many eighths apart in the texture.
const APART: i32 = 16_384;

/// Three octaves of texture, moved by (dx, dy) eighths, each pel with noise of up to `noise`.
fn texture(width: usize, height: usize, picture: usize, (dx, dy): (i32, i32), noise: u16) -> Vec<u16> {
    let mut lcg = Lcg((7 + dx + picture as i32) as u32);
    let mut plane = Vec::with_capacity(width * height);
    let left = 4096 + APART * picture as i32;
    for row in 0..height as i32 {
        for column in 0..width as i32 {
            let (x, y) = (8 * column + dx + left, 8 * row + dy + 4096);
            let value = octave(x, y, 240) + octave(x + 999, y, 72) + octave(x, y + 999, 24);
            plane.push(value as u16 + lcg.below(noise + 1));
        }
    }
    plane
}

/// A stored model near the identity.
pub const PARAMS: [i32; 6] = [12_288, -20_480, 65_570, -130, 118, 65_502];

/// The types of a model.
pub const IDENTITY: u8 = 0;
pub const TRANSLATION: u8 = 1;
pub const ROTZOOM: u8 = 2;
pub const AFFINE: u8 = 3;

pub const HIGH_PRECISION: u8 = 1;
pub const FRAME: u16 = 5;

/// The set of the rows by class.
pub const WITHOUT_FILM: ClassSet = ClassSet::of(&[UNSORTED, FIBRE, RIGID_PLASTIC, METAL]);

/// Each class in its turn.
pub fn classes(samples: usize) -> Vec<u8> {
    (0..samples).map(|i| (i % 5) as u8).collect()
}

/// How many numbers a model of this type carries.
pub fn carried(kind: u8) -> usize {
    2 * usize::from(kind)
}
