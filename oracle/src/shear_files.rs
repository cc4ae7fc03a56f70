//! The shear answers of ../shared/data, made by libaom.

use std::fs;

const ANSWERS: &str = concat!(env!("CARGO_MANIFEST_DIR"), "/../../shared/data/shear_libaom.txt");

/// A codable model, the verdict and alpha, beta, gamma, delta.
pub struct Answer {
    pub params: [i32; 6],
    pub valid: bool,
    pub numbers: [i32; 4],
}

pub fn answers() -> Vec<Answer> {
    let text = fs::read_to_string(ANSWERS).expect("shared/data stands beside the repository");
    text.lines().map(parse).collect()
}

fn parse(line: &str) -> Answer {
    let numbers = line.split_whitespace().skip(1).map(|text| text.parse().expect("a number")).collect::<Vec<i32>>();
    Answer {
        params: std::array::from_fn(|slot| numbers[slot]),
        valid: numbers[6] == 1,
        numbers: std::array::from_fn(|i| numbers[7 + i]),
    }
}
