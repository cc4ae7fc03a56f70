//! The list program's input and what it must print: good, damaged, short and zero blocks of both forms.
//! The argument is the program's folder.

use oracle::blocks::{self, BLOCK, Form, ONE, Sample, TWO};
use std::{env, fs, io, path::Path};

/// Samples from a seed; in form 2 every fifth is film.
fn samples(form: Form, seed: u32, n: usize) -> Vec<Sample> {
    let mut samples = blocks::samples(&blocks::words(seed, n));
    if form == TWO {
        samples.iter_mut().step_by(5).for_each(|(_, class)| *class = blocks::LAST_CLASS);
    }
    samples
}

/// A byte changed, with the check left and mended.
fn damaged(good: &[u8], at: usize, bit: u8) -> Vec<u8> {
    let mut left = good.to_vec();
    left[at] ^= bit;
    let mut mended = left.clone();
    blocks::mend(&mut mended, at);
    [left, mended].concat()
}

/// Whole frames, the last block of the largest, and one with each leading byte, a byte of each field of a sample, filler
/// and check changed.
fn of_form(form: Form, counts: [usize; 5]) -> Vec<u8> {
    let mut input = Vec::new();
    for (frame, n) in [0, 65535, 7, 8, 9].into_iter().zip(counts) {
        input.extend(blocks::write(form, frame, &samples(form, n as u32, n)));
    }
    // The whole of 4,096 places is too long for a stored text: its last block alone.
    let largest = blocks::write(form, 4096, &samples(form, 3, 4096));
    input.extend(&largest[largest.len() - BLOCK..]);
    let good = blocks::write(form, 300, &samples(form, 11, 2));
    for at in [0, 1, 2, 3, 4, 5, 6, 7, 8, 9, 10, 11, 12, 16, 17, 18, 507, 508, 511] {
        for bit in [1, 64, 128] {
            input.extend(damaged(&good, at, bit));
        }
    }
    input
}

fn main() -> io::Result<()> {
    let folder = env::args().nth(1).expect("the argument is the folder to write to");
    let mut input = blocks::write(ONE, 5, &[(0x0006_fb7c, 0)]);
    input.extend(blocks::write(TWO, 5, &[(0x0006_fb7c, 4)]));
    input.extend(of_form(ONE, [1, 3, 125, 126, 251]));
    input.extend(of_form(TWO, [1, 3, 100, 101, 201]));
    input.extend([0; BLOCK]);
    // a class over 4, and a form that isn't there
    let one = blocks::write(TWO, 300, &[(0x0006_fb7c, 0)]);
    for (at, value) in [(12, 5), (2, 3), (2, 0)] {
        let mut wrong = one.clone();
        wrong[at] = value;
        blocks::mend(&mut wrong, at);
        input.extend(wrong);
    }
    input.extend(&one[..BLOCK - 1]);
    let text: String = input.chunks(BLOCK).map(blocks::text).collect();
    fs::write(Path::new(&folder).join("stdin"), input)?;
    fs::write(Path::new(&folder).join("stdout"), text)
}
