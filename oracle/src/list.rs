//! What the list makers share: the generator of inputs and the binary form of a list.

use crate::{IDENTITY, Models, quantize_global_param};
use std::{fs, io, path::Path};

/// The samples of the longest list.
pub const MOST_SAMPLES: usize = 4096;

/// A block for each place, its motion at either end of the range: a list whose AFFINE has two scores in two orders.
pub fn tilted_words() -> Vec<u32> {
    let end = |up: bool| if up { 446 } else { 0 };
    let word = |q: u32| q << 20 | end(q * q % 3 != 0) << 11 | end((q * q + q / 64) % 5 < 2) << 2;
    (0..MOST_SAMPLES as u32).map(word).collect()
}

/// Words of the first row of blocks, with motions u in eighths and none down.
pub fn across(eighths: &[i32]) -> Vec<u32> {
    let word = |(place, &u): (usize, &i32)| (place as u32) << 20 | 223 << 11 | ((223 + u) as u32) << 2;
    eighths.iter().enumerate().map(word).collect()
}

/// Words of a field that moves as one, in places that rise, but for `loose` of each 32, which move on their own.
pub fn loose_words(lcg: &mut Lcg, count: usize, loose: u16) -> Vec<u32> {
    let across = (count as f64).sqrt().ceil() as usize;
    let slopes: [i32; 6] = std::array::from_fn(|_| i32::from(lcg.below(9)) - 4);
    let word = |place: usize| {
        let (row, column) = ((place / across) as i32, (place % across) as i32);
        let free = lcg.below(32) < loose;
        let mut motion = |at: usize| match free {
            true => u32::from(lcg.below(447)),
            false => {
                let even = 8 * slopes[at] + slopes[at + 1] * column / 4 + slopes[at + 2] * row / 4;
                (223 + even + i32::from(lcg.below(3)) - 1).clamp(0, 446) as u32
            }
        };
        (row as u32) << 26 | (column as u32) << 20 | motion(0) << 11 | motion(3) << 2
    };
    (0..count).map(word).collect()
}

/// Smooth, and nowhere the same along a line, so that every block's place can be found; each pel is the bowl's at the
/// place that is given for its row and column, clamped.
pub fn bowl(width: usize, height: usize, place: impl Fn(i32, i32) -> (i32, i32)) -> Vec<u16> {
    let pel = |i: usize| {
        let (r, c) = place((i / width) as i32, (i % width) as i32);
        let (r, c) = (r.clamp(0, height as i32 - 1), c.clamp(0, width as i32 - 1));
        ((r - 31).pow(2) + 2 * (c - 29).pow(2)) as u16
    };
    (0..width * height).map(pel).collect()
}

/// The generator of inputs, which a replay program can run too.
pub struct Lcg(pub u32);

impl Lcg {
    /// Steps the state and gives its upper 16 bits.
    pub fn step(&mut self) -> u16 {
        self.0 = self.0.wrapping_mul(1_664_525).wrapping_add(1_013_904_223);
        (self.0 >> 16) as u16
    }

    /// Two steps, the first above the second.
    pub fn word(&mut self) -> u32 {
        let high = u32::from(self.step());
        high << 16 | u32::from(self.step())
    }

    /// One step, its remainder by `count`.
    pub fn below(&mut self, count: u16) -> u16 {
        self.step() % count
    }

    pub fn words(&mut self, count: usize) -> Vec<u32> {
        (0..count).map(|_| self.word()).collect()
    }

    /// One step for each pel, its bits outside `mask` cleared.
    pub fn plane(&mut self, width: usize, height: usize, mask: u16) -> Vec<u16> {
        (0..width * height).map(|_| self.step() & mask).collect()
    }

    /// Seven models on the grid, of types drawn at random.
    pub fn models(&mut self, high: bool) -> ([u8; 7], Models) {
        let types = std::array::from_fn(|_| self.below(4) as u8);
        let params = std::array::from_fn(|i| {
            let mut model = IDENTITY;
            let slots: &[usize] = match types[i] {
                0 => &[],
                1 => &[0, 1],
                2 => &[0, 1, 2, 3],
                _ => &[0, 1, 2, 3, 4, 5],
            };
            for &slot in slots {
                let reach = if slot < 2 { 4_300_000 } else { 8_400 };
                let value = IDENTITY[slot] + self.word() as i32 % reach;
                model[slot] = quantize_global_param(types[i], high, slot, value);
            }
            if types[i] == 2 {
                model[4] = -model[3];
                model[5] = model[2];
            }
            model
        });
        (types, params)
    }

    /// A prior anywhere in range, its ends now and then.
    pub fn prior(&mut self) -> Models {
        std::array::from_fn(|_| {
            std::array::from_fn(|slot| {
                let reach: i32 = if slot < 2 { 4_194_304 } else { 8_192 };
                let offset = match self.below(8) {
                    0 => reach,
                    1 => -reach,
                    2 => 0,
                    _ => self.word() as i32 % (reach + 1),
                };
                IDENTITY[slot] + offset
            })
        })
    }
}

/// A sum of pels that depends on their order.
pub fn sum(pels: &[u16]) -> u32 {
    pels.iter().fold(1, |sum: u32, &pel| {
        let mut state = Lcg(sum.wrapping_add(u32::from(pel)));
        state.step();
        state.0
    })
}

/// A list being made: big-endian 32-bit words.
#[derive(Default)]
pub struct List(Vec<u8>);

impl List {
    pub fn push(&mut self, word: u32) {
        self.0.extend(word.to_be_bytes());
    }

    pub fn push_signed(&mut self, value: i32) {
        self.push(value as u32);
    }

    /// Two words, the high one first; a not-a-number as `canonical` gives it.
    pub fn push_float(&mut self, value: f64) {
        self.0.extend(crate::canonical(value).to_bits().to_be_bytes());
    }

    /// Bytes as words, zeros up to a whole one.
    pub fn push_bytes(&mut self, bytes: &[u8]) {
        for part in bytes.chunks(4) {
            let mut word = [0; 4];
            word[..part.len()].copy_from_slice(part);
            self.push(u32::from_be_bytes(word));
        }
    }

    /// Bytes as they are.
    pub fn push_raw(&mut self, bytes: &[u8]) {
        self.0.extend(bytes);
    }

    /// Writes the list to a file, in a folder that is made if need be.
    pub fn write(&self, path: impl AsRef<Path>) -> io::Result<()> {
        if let Some(folder) = path.as_ref().parent() {
            fs::create_dir_all(folder)?;
        }
        fs::write(path, &self.0)
    }
}
