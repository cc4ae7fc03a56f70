//! belt convert: a file of blocks in the other form, one frame after the other.

use crate::failure::Failure;
use crate::lists;
use crate::output::{Files, shown};
use crate::report::words::many;
use belt::{BLOCK_BYTES, Form, MOST_SAMPLES, Refusal};
use std::io::{self, BufReader, Read, Write};
use std::path::Path;

pub fn run(place: &Path, out: &Path, to: &str) -> Result<(), Failure> {
    let to = if to == "1" { Form::One } else { Form::Two };
    let mut files = Files::judge([place], [out])?;
    let source = BufReader::new(lists::open(place)?);
    let file = files.create(out)?;
    let (frames, blocks) = converted(source, files.file(file), to).map_err(|stop| match stop {
        Stop::Refused(at, refusal) => Failure::refused(format!("{}, frame at byte {at}", shown(place)), refusal),
        Stop::Unread(error) => Failure::bad(shown(place), error),
        Stop::Unwritten(error) => Failure::bad(shown(out), error),
    })?;
    let name = if out == Path::new("-") { "standard output".into() } else { shown(out) };
    files.say(&format!("{name}: {}, {}\n", many(frames, "frame"), many(blocks, "block")))?;
    files.keep()
}

/// Why a conversion ends before its end.
#[derive(Debug)]
enum Stop {
    /// The frame at a byte.
    Refused(u64, Refusal),
    Unread(io::Error),
    Unwritten(io::Error),
}

/// Carries one frame over; answers how many blocks.
type Convert = fn(&[u8], &mut [u8]) -> Result<usize, Refusal>;

/// Converts all frames to the form asked for; how many frames and blocks.
fn converted(mut source: impl Read, out: &mut impl Write, to: Form) -> Result<(usize, usize), Stop> {
    let (convert, from): (Convert, Form) = match to {
        Form::One => (belt::to_form1, Form::Two),
        _ => (belt::to_form2, Form::One),
    };
    let mut room = vec![0; belt::block_bytes(MOST_SAMPLES, to)];
    let (mut at, mut frames, mut blocks) = (0, 0, 0);
    loop {
        let mut frame = Vec::new();
        source.by_ref().take(BLOCK_BYTES as u64).read_to_end(&mut frame).map_err(Stop::Unread)?;
        if frame.is_empty() {
            return Ok((frames, blocks));
        }
        // a frame's first block has its total; what it may not be is the library's to refuse
        let total = frame.get(4..6).map_or(0, |total| usize::from(u16::from_be_bytes([total[0], total[1]])));
        let more = belt::block_bytes(total.min(MOST_SAMPLES), from).saturating_sub(BLOCK_BYTES);
        source.by_ref().take(more as u64).read_to_end(&mut frame).map_err(Stop::Unread)?;
        let made = convert(&frame, &mut room).map_err(|refusal| Stop::Refused(at, refusal))?;
        out.write_all(&room[..made * BLOCK_BYTES]).map_err(Stop::Unwritten)?;
        (at, frames, blocks) = (at + frame.len() as u64, frames + 1, blocks + made);
    }
}

#[cfg(test)]
mod tests {
    use super::*;

    fn frame(number: u16, count: u32, class: u8) -> Vec<u8> {
        let words: Vec<u32> = (0..count).map(|i| i << 20 | 223 << 11 | 223 << 2).collect();
        let mut blocks = vec![0; belt::block_bytes(words.len(), Form::Two)];
        belt::write_frame(number, &words, &vec![class; words.len()], &mut blocks).unwrap();
        blocks
    }

    fn all(bytes: &[u8], to: Form) -> Result<(Vec<u8>, usize), (u64, Refusal)> {
        let mut out = Vec::new();
        match converted(bytes, &mut out, to) {
            Ok((frames, blocks)) => {
                assert_eq!(blocks * BLOCK_BYTES, out.len());
                Ok((out, frames))
            }
            Err(Stop::Refused(at, refusal)) => Err((at, refusal)),
            Err(stop) => panic!("{stop:?}"),
        }
    }

    #[test]
    fn frames_go_over_and_back() {
        let file = [frame(5, 1, 3), frame(6, 126, 1), frame(7, 300, 0)].concat();
        let (old, frames) = all(&file, Form::One).unwrap();
        assert_eq!((old.len() / BLOCK_BYTES, frames), (1 + 2 + 3, 3));
        assert_eq!(all(&old, Form::Two).unwrap(), (file, 3));
        assert_eq!(all(&[], Form::Two).unwrap(), (vec![], 0));
    }

    #[test]
    fn the_frame_that_is_refused_is_named() {
        let film = [frame(5, 101, 3), frame(6, 1, belt::FILM)].concat();
        assert_eq!(all(&film, Form::One), Err((1024, Refusal::NotHeld)));
        assert_eq!(all(&film, Form::Two), Err((0, Refusal::WrongBlock)));
        assert_eq!(all(&film[..1100], Form::One), Err((1024, Refusal::EndsFirst)));
    }
}
