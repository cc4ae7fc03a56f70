//! read_header HEXADECIMAL [BIT]: the seven models of a header at high precision, against a prior of identities.
//!
//!     cargo run --example read_header A42000

use belt::{IDENTITIES, Precision};
use std::env;
use std::process::ExitCode;

fn bytes(text: &str) -> Option<Vec<u8>> {
    let pair = |i: usize| u8::from_str_radix(text.get(i..i + 2)?, 16).ok();
    (0..text.len()).step_by(2).map(pair).collect()
}

fn main() -> ExitCode {
    let words: Vec<String> = env::args().skip(1).collect();
    let at = words.get(1).map_or(Some(0), |word| word.parse().ok());
    let (Some(header), Some(at), true) = (words.first().and_then(|text| bytes(text)), at, words.len() < 3) else {
        eprintln!("usage: read_header HEXADECIMAL [BIT]");
        return ExitCode::from(2);
    };
    match belt::read_global_motion_params(&header, at, Precision::High, &IDENTITIES) {
        Ok(read) => {
            for (i, (gm_type, model)) in read.x_first().into_iter().enumerate() {
                let shift = model.shift();
                println!(
                    "reference {}: {gm_type}, moved {:.3} right, {:.3} down, zoom {:.5}, turned by {:.3} degrees",
                    i + 1,
                    shift.u,
                    shift.v,
                    model.zoom(),
                    model.degrees()
                );
            }
            println!("{} bits", read.bits);
            ExitCode::SUCCESS
        }
        Err(refusal) => {
            eprintln!("read_header: refused, {refusal}");
            ExitCode::FAILURE
        }
    }
}
