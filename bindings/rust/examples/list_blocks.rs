//! list_blocks [FILE]: the text of each sample block of a file or of standard input, as the program `list` prints it.
//! Ends with 0; with 1 if a block was refused; with 2 where reading or writing failed or a word isn't known.

use belt::{BLOCK_BYTES, TEXT_BYTES};
use std::io::{self, Read, Write};
use std::process::ExitCode;
use std::{env, fs};

fn all(file: Option<&str>) -> io::Result<Vec<u8>> {
    match file {
        Some(path) => fs::read(path),
        None => {
            let mut bytes = Vec::new();
            io::stdin().read_to_end(&mut bytes)?;
            Ok(bytes)
        }
    }
}

/// Prints every block; whether none was refused.
fn list(bytes: &[u8]) -> io::Result<bool> {
    let mut out = io::stdout().lock();
    let mut accepted = true;
    for block in bytes.chunks(BLOCK_BYTES) {
        let mut text = [0; TEXT_BYTES];
        out.write_all(belt::list_block(block, &mut text).as_bytes())?;
        accepted &= belt::judge_block(block).is_ok();
    }
    out.flush()?;
    Ok(accepted)
}

fn main() -> ExitCode {
    let words: Vec<String> = env::args().skip(1).collect();
    if words.len() > 1 || words.iter().any(|word| word.starts_with('-')) {
        eprintln!("usage: list_blocks [FILE]");
        return ExitCode::from(2);
    }
    match all(words.first().map(String::as_str)).and_then(|bytes| list(&bytes)) {
        Ok(true) => ExitCode::SUCCESS,
        Ok(false) => ExitCode::from(1),
        Err(error) => {
            eprintln!("list_blocks: {error}");
            ExitCode::from(2)
        }
    }
}
