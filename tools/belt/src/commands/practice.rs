//! belt practice: two pictures with a known motion.

use crate::failure::Failure;
use crate::measure::judge_sides;
use crate::output::{Files, shown};
use crate::report::words;
use belt::Motion;
use std::path::Path;

pub fn run(
    input: &Path,
    reference: &Path,
    [width, height]: [usize; 2],
    [dx, dy]: [i32; 2],
    seed: u32,
) -> Result<(), Failure> {
    let mut files = Files::judge([], [input, reference])?;
    let place = format!("practice, {width}×{height} pels");
    if width == 0 || height == 0 {
        return Err(Failure::bad("--size", "a picture without pels can't be measured"));
    }
    let refused = |refusal| Failure::refused(&place, refusal);
    judge_sides(width, height).map_err(refused)?;
    let (mut moved, mut still) = (vec![0; width * height], vec![0; width * height]);
    belt::make_practice_planes(seed, width, height, dy, dx, &mut moved, &mut still).map_err(refused)?;
    files.add(input, &pgm(width, height, &moved))?;
    files.add(reference, &pgm(width, height, &still))?;
    let motion = words::motion(Motion { u: f64::from(dx), v: f64::from(dy) });
    let line = format!("{} to {}: {motion}, {width}×{height} pels of seed {seed}\n", shown(input), shown(reference));
    files.say(&line)?;
    files.keep()
}

/// A PGM file of 16 bits.
fn pgm(width: usize, height: usize, pels: &[u16]) -> Vec<u8> {
    let mut file = format!("P5\n{width} {height}\n65535\n").into_bytes();
    file.extend(pels.iter().flat_map(|pel| pel.to_be_bytes()));
    file
}
