//! A maker of practice belts, written from `docs/RULES.md` alone.

use crate::list::Lcg;

/// The row that refuses, 0 for none.
pub fn refusal(width: usize, height: usize, dy: i32, dx: i32, input_room: usize, reference_room: usize) -> u32 {
    if width > 1024 || height > 1024 {
        1
    } else if !(-24..=24).contains(&dy) || !(-24..=24).contains(&dx) {
        18
    } else if input_room.min(reference_room) < width * height {
        3
    } else {
        0
    }
}

/// The input plane and the reference plane.
pub fn planes(seed: u32, width: usize, height: usize, dy: i32, dx: i32) -> (Vec<u16>, Vec<u16>) {
    let reference = Lcg(seed).plane(width, height, u16::MAX);
    let clamped = |at: usize, by: i32, side: usize| (at as i32 + by).clamp(0, side as i32 - 1) as usize;
    let mut input = Vec::new();
    for row in 0..height {
        for column in 0..width {
            input.push(reference[clamped(row, dy, height) * width + clamped(column, dx, width)]);
        }
    }
    (input, reference)
}
