// SPDX-License-Identifier: MIT
//! belt: the motion core from a command line.
//!
//! Pictures, blocks and headers come in (the crate `frames`, `clip`, `lists`), the library is asked (`measure`, by the
//! crate `track`), and the answer goes out in words, as JSON (`report`) or as a picture (`picture`); a clip is recorded
//! too (the crate `record`). `cli` has the words that are taken and their help; the manual page is made of it. Whatever
//! goes wrong is a [`failure::Failure`]: one line and a status.

mod cli;
mod clip;
mod commands;
mod demo;
mod failure;
mod lists;
mod measure;
mod memory;
mod model;
mod ordered;
mod output;
mod picture;
mod plain;
mod report;
mod tracked;

use std::io::{self, Write};
use std::process::ExitCode;

#[global_allocator]
static MEMORY: memory::Told = memory::Told;

fn main() -> ExitCode {
    memory::keep();
    match cli::parse(std::env::args_os().collect()).and_then(commands::run) {
        Ok(()) => ExitCode::SUCCESS,
        Err(failure) => {
            // there is nobody to tell that standard error can't be written
            let _ = writeln!(io::stderr(), "belt: {failure}");
            ExitCode::from(failure.status())
        }
    }
}
