//! Frames without their light: smoothed, their slow brightness taken away, the second brought to the first's contrast.

use crate::plane::Plane;
use crate::{Frame, Refused};

/// The value that stands for the brightness around.
const MIDDLE: f64 = 4096.0;
/// The brightest value of a frame is brought to this.
const SCALE: f64 = 2040.0;
/// No value is larger: what the brightest pel comes to at the most contrast. A pel over its frame's white is held to it.
const MOST: f32 = 8191.0;
/// The mean is of so many pels on each side of a pel.
const REACH: usize = 15;
/// The pels of that window.
const WINDOW: u32 = ((2 * REACH + 1) * (2 * REACH + 1)) as u32;
/// What the weights 1, 2, 1 across and down sum to.
const WEIGHTS: u32 = 16;
/// Contrast is changed by no more than this factor, either way.
const MOST_CONTRAST: f64 = 2.0;

/// Sums are made in so many lanes.
const LANES: usize = 8;

/// A frame less the brightness around each pel: what is measured of it against the frame before and the one behind.
#[derive(Clone, Debug)]
pub struct Detail {
    pub(crate) width: usize,
    pub(crate) height: usize,
    /// Whole numbers of a [`WINDOW`]th of a [`WEIGHTS`]th of the frame's own unit.
    values: Vec<i32>,
    /// What a unit of the values is, of [`SCALE`].
    unit: f64,
    /// The standard deviation, of [`SCALE`].
    deviation: f64,
    /// Whether all pels have one value.
    pub(crate) is_flat: bool,
}

impl Detail {
    /// Takes the light away from a frame.
    ///
    /// # Errors
    ///
    /// [`Refused`] where the frame is too large, or has the wrong number of pels.
    pub fn of(frame: &Frame<'_>) -> Result<Self, Refused> {
        let &Frame { pels, width, height, most } = frame;
        if width.max(height) > belt::MOST_SIDE {
            return Err(Refused::TooLarge);
        }
        if pels.len() != width * height {
            return Err(Refused::Pels { given: pels.len(), wanted: width * height });
        }
        let values = if pels.is_empty() { Vec::new() } else { less_around(frame) };
        let unit = SCALE / f64::from(most.max(1)) / f64::from(WEIGHTS * WINDOW);
        let is_flat = pels.iter().all(|pel| *pel == pels[0]);
        Ok(Self { width, height, deviation: unit * deviation(&values), values, unit, is_flat })
    }

    fn plane(&self, contrast: f64) -> Plane {
        let factor = (self.unit * contrast) as f32;
        let pel = |&value: &i32| down((value as f32 * factor + (MIDDLE + 0.5) as f32).clamp(0.0, MOST));
        Plane { width: self.width, height: self.height, pels: self.values.iter().map(pel).collect() }
    }
}

/// Numbers from here on have no fraction, and the pels are the last bits of a sum with it.
const WHOLE: f32 = 8_388_608.0;

/// A number from 0 to [`MOST`] rounded down. A cast would also ask whether it is one, pel by pel.
fn down(number: f32) -> u16 {
    let nearest = number + WHOLE;
    let over = u32::from(nearest - WHOLE > number);
    ((nearest.to_bits() - over) & MOST as u32) as u16
}

/// The standard deviation.
fn deviation(values: &[i32]) -> f64 {
    let (mut plain, mut square) = ([0i64; LANES], [0f64; LANES]);
    for values in values.chunks(LANES) {
        for (lane, &value) in values.iter().enumerate() {
            plain[lane] += i64::from(value);
            square[lane] += f64::from(value) * f64::from(value);
        }
    }
    let count = values.len().max(1) as f64;
    let mean = plain.iter().sum::<i64>() as f64 / count;
    (square.iter().sum::<f64>() / count - mean * mean).max(0.0).sqrt()
}

/// Both frames as planes, the second with the first's contrast.
pub(crate) fn planes(first: &Detail, second: &Detail) -> (Plane, Plane) {
    let (wanted, own) = (first.deviation, second.deviation);
    let contrast = if own > 0.0 { (wanted / own).clamp(1.0 / MOST_CONTRAST, MOST_CONTRAST) } else { 1.0 };
    (first.plane(1.0), second.plane(contrast))
}

/// Each smoothed value [`WINDOW`] times, less the sum over the window around it, edges repeated.
fn less_around(frame: &Frame<'_>) -> Vec<i32> {
    let (width, height) = (frame.width, frame.height);
    let mut rows = Rows::of(frame);
    // the window of the row before the first
    let mut sums = vec![0u32; width];
    for step in 0..=2 * REACH {
        let row = step.saturating_sub(REACH + 1).min(height - 1);
        rows.reach(row);
        sums.iter_mut().zip(rows.across(row)).for_each(|(sum, &value)| *sum += value);
    }
    let mut less = Vec::with_capacity(width * height);
    for y in 0..height {
        let (enters, leaves) = ((y + REACH).min(height - 1), y.saturating_sub(REACH + 1));
        rows.reach(enters);
        let changes = rows.across(enters).iter().zip(rows.across(leaves));
        let row = rows.smooth(y).iter().zip(&mut sums).zip(changes).map(|((&own, sum), (&enters, &leaves))| {
            *sum = *sum + enters - leaves;
            // both at most 16 · 65,535 · 961 < 2^31
            (own * WINDOW) as i32 - *sum as i32
        });
        less.extend(row);
    }
    less
}

/// The last rows of a frame that a window has and the one that leaves it, so that they stay near the processor.
struct Rows<'a> {
    frame: &'a Frame<'a>,
    /// So many were made, the smoothed row and its sums over the window's width, one for each place of the ring.
    made: usize,
    smooth: Vec<u32>,
    across: Vec<u32>,
    column: Vec<u32>,
    padded: Vec<u32>,
}

impl<'a> Rows<'a> {
    /// The rows of the ring.
    const COUNT: usize = 2 * REACH + 2;

    fn of(frame: &'a Frame<'a>) -> Self {
        let ring = || vec![0; Self::COUNT * frame.width];
        let (column, padded) = (vec![0; frame.width + 2], vec![0; frame.width + 2 * REACH + 1]);
        Self { frame, made: 0, smooth: ring(), across: ring(), column, padded }
    }

    fn place(&self, y: usize) -> std::ops::Range<usize> {
        let from = y % Self::COUNT * self.frame.width;
        from..from + self.frame.width
    }

    fn smooth(&self, y: usize) -> &[u32] {
        &self.smooth[self.place(y)]
    }

    fn across(&self, y: usize) -> &[u32] {
        &self.across[self.place(y)]
    }

    /// Makes the rows up to this one.
    fn reach(&mut self, y: usize) {
        while self.made <= y {
            let place = self.place(self.made);
            smooth(self.frame, self.made, &mut self.column, &mut self.smooth[place.clone()]);
            sum_across(&self.smooth[place.clone()], &mut self.padded, &mut self.across[place]);
            self.made += 1;
        }
    }
}

/// A row with weights 1, 2, 1 across and down, edges repeated.
fn smooth(frame: &Frame<'_>, y: usize, column: &mut [u32], out: &mut [u32]) {
    let (width, height) = (frame.width, frame.height);
    let row = |y: usize| &frame.pels[y * width..][..width];
    let rows = row(y.saturating_sub(1)).iter().zip(row(y)).zip(row((y + 1).min(height - 1)));
    for (sum, ((&above, &own), &below)) in column[1..=width].iter_mut().zip(rows) {
        *sum = u32::from(above) + 2 * u32::from(own) + u32::from(below);
    }
    column[0] = column[1];
    column[width + 1] = column[width];
    for (out, near) in out.iter_mut().zip(column.windows(3)) {
        *out = near[0] + 2 * near[1] + near[2];
    }
}

/// For each value of a row the sum over the window's width around it, edges repeated.
fn sum_across(row: &[u32], padded: &mut [u32], out: &mut [u32]) {
    let width = row.len();
    padded[..=REACH].fill(row[0]);
    padded[REACH + 1..][..width].copy_from_slice(row);
    padded[REACH + 1 + width..].fill(row[width - 1]);
    let mut sum: u32 = padded[..=2 * REACH].iter().sum();
    for ((out, &leaves), &enters) in out.iter_mut().zip(&*padded).zip(&padded[2 * REACH + 1..]) {
        sum = sum + enters - leaves;
        *out = sum;
    }
}

#[cfg(test)]
mod tests {
    use super::*;

    fn normalised(first: &Frame<'_>, second: &Frame<'_>) -> (Plane, Plane) {
        planes(&Detail::of(first).unwrap(), &Detail::of(second).unwrap())
    }

    /// A pel and its window, added up one by one.
    fn plainly(frame: &Frame<'_>, x: isize, y: isize) -> f64 {
        let pel = |x: isize, y: isize| {
            let inside = |place: isize, side: usize| place.clamp(0, side as isize - 1) as usize;
            f64::from(frame.pels[inside(y, frame.height) * frame.width + inside(x, frame.width)])
        };
        let smooth = |x: isize, y: isize| {
            let (x, y) = (x.clamp(0, frame.width as isize - 1), y.clamp(0, frame.height as isize - 1));
            let weight = |step: isize| if step == 0 { 2.0 } else { 1.0 };
            let near = (-1..=1).flat_map(|dy| (-1..=1).map(move |dx| (dx, dy)));
            near.map(|(dx, dy)| weight(dx) * weight(dy) * pel(x + dx, y + dy)).sum::<f64>() / 16.0
        };
        let around = (-15..=15).flat_map(|dy| (-15..=15).map(move |dx| smooth(x + dx, y + dy))).sum::<f64>() / 961.0;
        smooth(x, y) - around
    }

    fn noise(count: usize, most: u16) -> Vec<u16> {
        let mut state = 1u32;
        let mut next = || {
            state = state.wrapping_mul(1_664_525).wrapping_add(1_013_904_223);
            (u32::from(most) * (state >> 16) / 65_535) as u16
        };
        (0..count).map(|_| next()).collect()
    }

    #[test]
    fn it_is_the_smoothed_value_less_the_mean_around() {
        for (width, height, most) in [(40, 37, 255), (1, 1, 255), (3, 50, 1023), (50, 2, 65_535)] {
            let pels = noise(width * height, most);
            let frame = Frame { pels: &pels, width, height, most };
            let (plane, _) = normalised(&frame, &frame);
            for (i, &pel) in plane.pels.iter().enumerate() {
                let detail = plainly(&frame, (i % width) as isize, (i / width) as isize) * 2040.0 / f64::from(most);
                assert!((f64::from(pel) - 4096.0 - detail).abs() < 0.52, "{width}×{height} at {i}: {pel}, {detail}");
            }
        }
    }

    #[test]
    fn numbers_are_rounded_down_as_a_cast_does() {
        let near = (0..=8191).flat_map(|whole| {
            let whole = whole as f32;
            [whole.next_down(), whole, whole.next_up(), whole + 0.25, whole + 0.5, (whole + 0.5).next_up(), whole + 0.75]
        });
        for number in near.chain([1e-9, 0.1, 0.9]).filter(|number| (0.0..=MOST).contains(number)) {
            assert_eq!(down(number), number as u16, "{number}");
        }
    }

    #[test]
    fn brightness_and_contrast_play_no_part() {
        let pels: Vec<u16> = noise(64 * 64, 120).into_iter().map(|pel| pel + 10).collect();
        let brighter: Vec<u16> = pels.iter().map(|pel| pel * 3 / 2 + 40).collect();
        let frame = |pels| Frame { pels, width: 64, height: 64, most: 255 };
        let (first, second) = normalised(&frame(&pels), &frame(&brighter));
        let apart = first.pels.iter().zip(&second.pels).map(|(&a, &b)| a.abs_diff(b)).max().unwrap();
        assert!(apart <= 8, "{apart}");
    }
}
