//! belt read-header: the seven models that a header carries.

use super::flag_and_prior;
use crate::cli::Header;
use crate::failure::Failure;
use crate::lists;
use crate::model::{self, TYPES};
use crate::output::{print, shown};
use crate::report::json;
use crate::report::words;
use belt::{Kind, Models};
use hex::FromHexError;
use serde::Serialize;
use std::fmt::Write;
use std::path::Path;

/// A file with a header in it is no longer than this.
const LONGEST: u64 = 1 << 24;

pub fn run(place: &Path, at: usize, hex: bool, header: &Header, kind: Kind, json: bool) -> Result<(), Failure> {
    let (flag, prior) = flag_and_prior(header)?;
    let mut bytes = lists::bytes(place, LONGEST)?;
    if hex {
        bytes = digits(&bytes).map_err(|what| Failure::bad(shown(place), what))?;
    }
    let read = belt::read_global_motion(kind, &bytes, at, flag, &prior)
        .map_err(|refusal| Failure::refused(format!("{}, bit {at}", shown(place)), refusal))?;
    print(&if json { for_programs(&read, at) } else { in_words(&read, at) })
}

/// Bytes from hexadecimal digits, with spaces or without.
fn digits(text: &[u8]) -> Result<Vec<u8>, String> {
    let digits: Vec<u8> = text.iter().copied().filter(|byte| !byte.is_ascii_whitespace()).collect();
    hex::decode(&digits).map_err(|error| match error {
        FromHexError::InvalidHexCharacter { c, .. } => format!("'{}' is no hexadecimal digit", c.escape_default()),
        _ => format!("it has {} hexadecimal digits; a byte has two", digits.len()),
    })
}

fn in_words(read: &Models, at: usize) -> String {
    let mut out = String::new();
    for (i, (&gm_type, stored)) in read.types.iter().zip(read.models).enumerate() {
        let model = model::of_grid(gm_type, stored.x_first(gm_type));
        let numbers = stored.0.map(|number| number.to_string()).join(" ");
        let moved = words::moved(&model, model.motion_at(0.0, 0.0));
        let _ = writeln!(out, "reference {}: {}, {moved} ({numbers})", i + 1, TYPES[usize::from(gm_type)]);
    }
    let _ = writeln!(out, "{} bits, from bit {at} to bit {}", read.bits, at.saturating_add(read.bits));
    out
}

fn for_programs(read: &Models, at: usize) -> String {
    #[derive(Serialize)]
    struct Read {
        at: usize,
        bits: usize,
        models: Vec<json::Model>,
    }
    let models = read.types.iter().zip(&read.models).map(json::model).collect();
    json::line(&Read { at, bits: read.bits, models })
}

#[cfg(test)]
mod tests {
    use super::*;

    #[test]
    fn digits_are_bytes() {
        assert_eq!(digits(b"A4 20\n00 ff").unwrap(), [0xA4, 0x20, 0x00, 0xFF]);
        assert_eq!(digits(b"A42").unwrap_err(), "it has 3 hexadecimal digits; a byte has two");
        assert_eq!(digits(b"0x").unwrap_err(), "'x' is no hexadecimal digit");
    }

    #[test]
    fn a_header_is_told_in_words() {
        let read = belt::read_global_motion_params(&[0xA4, 0x20, 0x00], 0, 1, &belt::IDENTITIES).unwrap();
        let text = in_words(&read, 0);
        let first =
            "reference 1: translation, moved 0.125 pels left and 0.125 pels down (8192 -8192 65536 0 0 65536)\n";
        assert!(text.starts_with(first), "{text}");
        assert!(text.contains("\nreference 2: identity, didn't move (0 0 65536 0 0 65536)\n"));
        assert!(text.ends_with("\n17 bits, from bit 0 to bit 17\n"));
    }
}
