//! The headers of ../shared/data, made by other encoders.

use crate::Models;
use std::fs;

const DATA: &str = concat!(env!("CARGO_MANIFEST_DIR"), "/../../shared/data");

/// A header's bytes, the bit it begins at, what it is read with and what it holds.
pub struct Header {
    pub bytes: Vec<u8>,
    pub start: usize,
    pub high: bool,
    pub prior: Models,
    pub types: [u8; 7],
    pub params: Models,
    pub bits: usize,
}

/// The headers of a file, line by line.
pub fn headers(name: &str) -> Vec<Header> {
    let text = fs::read_to_string(format!("{DATA}/{name}")).expect("shared/data stands beside the repository");
    text.lines().map(parse).collect()
}

fn parse(line: &str) -> Header {
    let hex = field(line, "hex");
    let byte = |at| u8::from_str_radix(&hex[at..at + 2], 16).expect("bytes in hexadecimal");
    let numbers = |name| field(line, name).split(',').map(|text| text.parse().expect("a number")).collect::<Vec<i32>>();
    let number = |name| numbers(name)[0] as usize;
    let models = |name| {
        let numbers = numbers(name);
        std::array::from_fn(|i| std::array::from_fn(|j| numbers[6 * i + j]))
    };
    let types = numbers("types");
    Header {
        bytes: (0..hex.len()).step_by(2).map(byte).collect(),
        start: number("start"),
        high: number("flag") == 1,
        prior: models("prior"),
        types: std::array::from_fn(|i| types[i] as u8),
        params: models("params"),
        bits: number("bits"),
    }
}

/// What stands between the brackets or quotes of a field, or up to the next field.
fn field<'a>(line: &'a str, name: &str) -> &'a str {
    let (_, after) = line.split_once(&format!("\"{name}\":")).expect("the field is there");
    let end = |text: &str, mark: &[char]| text.find(mark).expect("the field ends");
    match after.strip_prefix(['"', '[']) {
        Some(inner) => &inner[..end(inner, &['"', ']'])],
        None => &after[..end(after, &[',', '}'])],
    }
}
