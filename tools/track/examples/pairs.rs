//! Measures pairs of frames from standard input, for `tools/belt/tests/footage`.
//!
//! A pair is three little-endian numbers of 32 bits, width, height and the value of white, then the pels of both frames,
//! 16 bits each. A line for each: status, how, type, six numbers, agree, usable, blocks, expected error, searches,
//! milliseconds of the whole, milliseconds of one search, warnings. `fast` as an argument takes the short way.

use std::fs;
use std::io::{self, Read, Write};
use track::{Frame, Options, Warning};

fn number(input: &mut impl Read) -> io::Result<usize> {
    let mut bytes = [0; 4];
    input.read_exact(&mut bytes)?;
    Ok(u32::from_le_bytes(bytes) as usize)
}

fn plane(input: &mut impl Read, pels: usize) -> io::Result<Vec<u16>> {
    let mut bytes = vec![0; 2 * pels];
    input.read_exact(&mut bytes)?;
    Ok(bytes.chunks_exact(2).map(|two| u16::from_le_bytes([two[0], two[1]])).collect())
}

/// The milliseconds of processor time that this thread has taken, where the system says so.
fn milliseconds() -> f64 {
    let said = fs::read_to_string("/proc/thread-self/schedstat").unwrap_or_default();
    said.split(' ').next().and_then(|nanoseconds| nanoseconds.parse().ok()).map_or(0.0, |n: f64| n / 1e6)
}

/// The milliseconds of a search of the frames as they are.
fn searched(first: &Frame<'_>, second: &Frame<'_>) -> f64 {
    let mut buffers = belt::Buffers::new(first.width, first.height);
    let classes = vec![0; buffers.words.len()];
    let begun = milliseconds();
    let belt::Buffers { input_half, ref_half, words, .. } = &mut buffers;
    let (width, height) = (first.width, first.height);
    belt::collect_motion_samples(first.pels, second.pels, width, height, &classes, input_half, ref_half, words)
        .expect("the frames were measured already");
    milliseconds() - begun
}

fn main() -> Result<(), Box<dyn std::error::Error>> {
    let (mut input, mut output) = (io::stdin().lock(), io::stdout().lock());
    let options = Options { fast: std::env::args().any(|argument| argument == "fast"), mask: None };
    while let Ok(width) = number(&mut input) {
        let (height, most) = (number(&mut input)?, number(&mut input)? as u16);
        let pels = [plane(&mut input, width * height)?, plane(&mut input, width * height)?];
        let [first, second] = [&pels[0], &pels[1]].map(|pels| Frame { pels, width, height, most });
        let begun = milliseconds();
        let answer = track::measure(&first, &second, &options)?;
        let whole = milliseconds() - begun;
        let numbers = answer.model.numbers.map(|number| number.to_string()).join("\t");
        let warnings: Vec<&str> = answer.warnings.iter().map(|warning: &Warning| warning.name()).collect();
        writeln!(
            output,
            "{}\t{}\t{}\t{numbers}\t{}\t{}\t{}\t{:.4}\t{:.4}\t{whole:.3}\t{:.3}\t{}",
            answer.status.name(),
            answer.how.name(),
            answer.model.gm_type,
            answer.agree,
            answer.usable,
            answer.blocks,
            answer.predicted,
            answer.searches,
            searched(&first, &second),
            warnings.join(" ")
        )?;
        output.flush()?;
    }
    Ok(())
}
