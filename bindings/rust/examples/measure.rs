//! measure INPUT.pgm REFERENCE.pgm [elect | translation | rotzoom | affine]: how the picture moved from the input to the
//! reference, of two binary PGM files (P5, up to 16 bits) of the same sides, up to 1,024 each. With the earlier picture as
//! the input it is the load's own motion.

use belt::{Buffers, GmType, MOST_SIDE, Settings, Task};
use std::error::Error;
use std::process::ExitCode;
use std::{env, fs};

/// What is asked for unless a type is: an election.
const ELECT: Settings = Settings::elect(1);
/// A sample agrees with the model within a quarter of a pel.
const NEAR: f64 = 0.25;

struct Picture {
    width: usize,
    height: usize,
    pels: Vec<u16>,
}

/// The next word of a PGM head, past spaces and comments, and what follows it.
fn word(mut bytes: &[u8]) -> Option<(&str, &[u8])> {
    loop {
        bytes = bytes.trim_ascii_start();
        let Some(b'#') = bytes.first() else { break };
        let end = bytes.iter().position(|&byte| byte == b'\n')?;
        bytes = &bytes[end..];
    }
    let end = bytes.iter().position(u8::is_ascii_whitespace)?;
    Some((std::str::from_utf8(&bytes[..end]).ok()?, &bytes[end..]))
}

fn pgm(bytes: &[u8]) -> Option<Picture> {
    let (magic, rest) = word(bytes)?;
    let (width, rest) = word(rest)?;
    let (height, rest) = word(rest)?;
    let (most, rest) = word(rest)?;
    let (width, height, most): (usize, usize, u32) = (width.parse().ok()?, height.parse().ok()?, most.parse().ok()?);
    let wide = most > 255;
    let values = rest.get(1..)?; // one space ends the head
    let count = width.checked_mul(height)?;
    if magic != "P5" || values.len() < if wide { count.checked_mul(2)? } else { count } {
        return None;
    }
    let pels = match wide {
        true => values.chunks_exact(2).take(count).map(|pair| u16::from_be_bytes([pair[0], pair[1]])).collect(),
        false => values[..count].iter().map(|&value| u16::from(value)).collect(),
    };
    Some(Picture { width, height, pels })
}

fn picture(path: &str) -> Result<Picture, String> {
    let bytes = fs::read(path).map_err(|error| format!("{path}: {error}"))?;
    pgm(&bytes).ok_or(format!("{path}: this is no whole binary PGM file (P5)"))
}

fn measure(input: &Picture, reference: &Picture, settings: Settings) -> Result<(), Box<dyn Error>> {
    let (width, height) = (input.width, input.height);
    if (reference.width, reference.height) != (width, height) {
        return Err("the two pictures have other sides".into());
    }
    if width.max(height) > MOST_SIDE {
        return Err(format!("a side over {MOST_SIDE}: cut the pictures, or halve them").into());
    }
    let mut buffers = Buffers::new(width, height);
    let task = Task { settings, ..Task::new(&input.pels, &reference.pels, width, height) };
    let report = belt::job(&task, &mut buffers.lend())?;
    let (gm_type, model) = (report.gm_type(), report.model());
    let (shift, agreeing) = (model.shift(), model.agreeing(&buffers.words, NEAR));
    if settings == ELECT {
        println!("elected: {gm_type}");
    }
    println!("moved {:.3} pels right, {:.3} down (input to reference, at the first pel)", shift.u, shift.v);
    if gm_type > GmType::Translation {
        println!("zoom {:.5}, turned by {:.3} degrees", model.zoom(), model.degrees());
    }
    println!("{agreeing} of {} blocks agree within {NEAR} pel; score {:.3} square pels", report.samples, report.score);
    if 2 * agreeing < report.samples {
        println!("few agree: it moved by more than 27.875 pels, or not as one piece, or another type fits");
    }
    let header: Vec<String> =
        buffers.header[..report.bits.div_ceil(8)].iter().map(|byte| format!("{byte:02X}")).collect();
    println!("header of {} bits: {}", report.bits, header.join(" "));
    Ok(())
}

fn main() -> ExitCode {
    let words: Vec<String> = env::args().skip(1).collect();
    let words: Vec<&str> = words.iter().map(String::as_str).collect();
    let (input, reference, asked) = match words[..] {
        [input, reference, "translation"] => (input, reference, Settings::fit(1, GmType::Translation)),
        [input, reference, "rotzoom"] => (input, reference, Settings::fit(1, GmType::Rotzoom)),
        [input, reference, "affine"] => (input, reference, Settings::fit(1, GmType::Affine)),
        [input, reference] | [input, reference, "elect"] => (input, reference, ELECT),
        _ => {
            eprintln!("usage: measure INPUT.pgm REFERENCE.pgm [elect | translation | rotzoom | affine]");
            return ExitCode::from(2);
        }
    };
    let measured = picture(input)
        .and_then(|input| Ok((input, picture(reference)?)))
        .map_err(Into::into)
        .and_then(|(input, reference)| measure(&input, &reference, asked));
    match measured {
        Ok(()) => ExitCode::SUCCESS,
        Err(error) => {
            eprintln!("measure: {error}");
            ExitCode::FAILURE
        }
    }
}
