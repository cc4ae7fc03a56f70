//! How many rows a search adds when a cost sum ends after the first row that brings it, with its offset cost, to the
//! best so far or above: a plain writing of docs/RULES.md, 'Rows added', from signed motions and clamped coordinates.
//! The Rust adds every row and counts none.

use crate::{BLOCK, half_plane, practice};
use std::ops::Range;

/// A plane row by row, with its sides.
struct Plane<'a> {
    pels: &'a [u16],
    width: usize,
    height: usize,
}

impl Plane<'_> {
    fn at(&self, row: i64, column: i64) -> i64 {
        let row = row.clamp(0, self.height as i64 - 1) as usize;
        let column = column.clamp(0, self.width as i64 - 1) as usize;
        i64::from(self.pels[row * self.width + column])
    }

    /// The pel at a place in eighths, blended of four.
    fn between(&self, row: i64, column: i64) -> i64 {
        let (r, c) = (row.div_euclid(8), column.div_euclid(8));
        let (f, g) = (row.rem_euclid(8), column.rem_euclid(8));
        let across = |r: i64| self.at(r, c) * (8 - g) + self.at(r, c + 1) * g;
        (across(r) * (8 - f) + across(r + 1) * f + 32) / 64
    }
}

/// The best so far, and the rows added so far.
struct Best {
    cost: i64,
    y: i64,
    x: i64,
    rows: u32,
}

impl Best {
    /// A start: every row is added.
    fn start(costs: &[i64], y: i64, x: i64, rows: u32) -> Best {
        Best { cost: costs.iter().sum(), y, x, rows: rows + costs.len() as u32 }
    }

    fn consider(&mut self, costs: &[i64], offset: i64, y: i64, x: i64) {
        let mut sum = offset;
        for cost in costs {
            sum += cost;
            self.rows += 1;
            if sum >= self.cost {
                return;
            }
        }
        (self.cost, self.y, self.x) = (sum, y, x);
    }

    /// The square of candidates around a centre, without it.
    fn scan(&mut self, reach: i64, step: i64, offset: impl Fn(i64, i64) -> i64, costs: impl Fn(i64, i64) -> Vec<i64>) {
        let (centre_y, centre_x) = (self.y, self.x);
        for dy in -reach..=reach {
            for dx in -reach..=reach {
                let (y, x) = (centre_y + dy * step, centre_x + dx * step);
                if (dy, dx) != (0, 0) {
                    self.consider(&costs(y, x), offset(y, x), y, x);
                }
            }
        }
    }
}

/// The costs of the rows of n × n pels: the input's against what `reference` has at a row and a column.
fn costs(n: i64, input: &Plane, top: i64, left: i64, reference: impl Fn(i64, i64) -> i64) -> Vec<i64> {
    let row = |r: i64| (left..left + n).map(|c| (input.at(r, c) - reference(r, c)).abs()).sum();
    (top..top + n).map(row).collect()
}

fn magnitudes(y: i64, x: i64) -> i64 {
    y.abs() + x.abs()
}

/// The rows of one block, and its motion v, u.
fn block(planes: [&Plane; 4], row: i64, column: i64) -> (u32, i64, i64) {
    let [input, reference, input_half, ref_half] = planes;
    let coarse = |y, x| costs(8, input_half, row * 8, column * 8, |r, c| ref_half.at(r + y, c + x));
    let full = |y, x| costs(16, input, row * 16, column * 16, |r, c| reference.at(r + y, c + x));
    let eighths = |v, u| costs(16, input, row * 16, column * 16, |r, c| reference.between(8 * r + v, 8 * c + u));

    let mut best = Best::start(&coarse(0, 0), 0, 0, 0);
    best.scan(12, 1, magnitudes, coarse);
    let (y, x) = (2 * best.y, 2 * best.x);
    best = Best::start(&full(y, x), y, x, best.rows);
    best.scan(3, 1, magnitudes, full);
    let (v, u) = (8 * best.y, 8 * best.x);
    best = Best::start(&eighths(v, u), v, u, best.rows);
    for step in [4, 2, 1] {
        best.scan(1, step, |_, _| 0, eighths);
    }
    (best.rows, best.y, best.x)
}

/// Planes of the same sides, and what stands for their half planes, of any values.
#[derive(Clone, Copy)]
pub struct Scene<'a> {
    pub input: &'a [u16],
    pub reference: &'a [u16],
    pub width: usize,
    pub height: usize,
    pub halves: [&'a [u16]; 2],
}

/// The rows that a band of block rows adds, and the motions v, u that it finds.
pub fn band(scene: Scene, rows: Range<usize>) -> (u32, Vec<(i64, i64)>) {
    let Scene { input, reference, width, height, halves } = scene;
    let plane = |pels, width, height| Plane { pels, width, height };
    let planes = [
        &plane(input, width, height),
        &plane(reference, width, height),
        &plane(halves[0], width / 2, height / 2),
        &plane(halves[1], width / 2, height / 2),
    ];
    let mut added = 0;
    let mut motions = Vec::new();
    for row in rows {
        for column in 0..width / BLOCK {
            let (rows, v, u) = block(planes, row as i64, column as i64);
            added += rows;
            motions.push((v, u));
        }
    }
    (added, motions)
}

/// The rows that a search adds, and the motions v, u that it finds.
pub fn search(input: &[u16], reference: &[u16], width: usize, height: usize) -> (u32, Vec<(i64, i64)>) {
    let halves = [half_plane(input, width, height), half_plane(reference, width, height)];
    let halves = [&halves[0][..], &halves[1]];
    band(Scene { input, reference, width, height, halves }, 0..height / BLOCK)
}

/// The worked counts of docs/RULES.md: sides, input, reference and the rows that the search adds.
pub fn worked() -> Vec<(usize, usize, Vec<u16>, Vec<u16>, u32)> {
    let plane = |pel: &dyn Fn(i32, i32) -> i32| -> Vec<u16> { (0..256).map(|k| pel(k / 16, k % 16) as u16).collect() };
    let bowl = |r: i32, c: i32| (r - 7).pow(2) + 2 * (c - 5).pow(2);
    let line = |at: i32| plane(&move |r, _| if r == at { 65535 } else { 0 });
    let zero = plane(&|_, _| 0);
    let (small_moved, small) = practice::planes(1, 32, 32, 2, 2);
    let (large_moved, large) = practice::planes(1, 64, 64, 3, -5);
    vec![
        (16, 16, zero.clone(), zero.clone(), 736),
        (16, 16, line(15), zero.clone(), 6184),
        (16, 16, line(14), zero.clone(), 6112),
        (16, 16, plane(&|_, _| 1), zero, 5488),
        (16, 16, plane(&|_, c| c), plane(&|r, _| r), 5335),
        (16, 16, plane(&|r, c| bowl(r, c) + 3 * r), plane(&bowl), 2913),
        (16, 16, plane(&|r, c| bowl(r, c) + r + c), plane(&bowl), 2400),
        (16, 16, plane(&|r, c| bowl(r, c) + 5 * c), plane(&bowl), 2916),
        (32, 32, small_moved, small, 11508),
        (64, 64, large_moved, large, 80132),
        (64, 64, vec![0; 4096], vec![0; 4096], 11776),
        (15, 16, vec![0; 240], vec![0; 240], 0),
    ]
}
