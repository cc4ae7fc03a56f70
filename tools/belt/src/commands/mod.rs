//! The commands: each takes its words, asks the library, and prints or stores the answer.

mod convert;
mod demo;
mod list;
mod measure;
mod practice;
mod price;
mod read_header;
mod replay;
mod track;

use crate::cli::{self, Command, Header, Seen};
use crate::failure::Failure;
use crate::lists;
use crate::measure::judged;
use crate::output::{Files, print};
use belt::{IDENTITIES, Kind, StoredModel};
use frames::Frame;
use std::path::Path;
use std::thread;

/// Runs the command that the words name.
pub fn run(command: Option<Command>) -> Result<(), Failure> {
    match command {
        None => Ok(()),
        Some(Command::Measure(words)) => measure::run(&words),
        Some(Command::Track(words)) => track::run(&words),
        Some(Command::Replay { headers, blocks, json }) => replay::run(&headers, blocks.as_ref(), json),
        Some(Command::Demo { folder }) => demo::run(&folder),
        Some(Command::List { file, csv }) => list::run(&file, csv),
        Some(Command::Convert { file, out, to }) => convert::run(&file, &out, &to),
        Some(Command::ReadHeader { file, at, hex, header, key, json }) => {
            read_header::run(&file, at, hex, &header, kind(key), json)
        }
        Some(Command::Practice { input, reference, size, shift, seed }) => {
            practice::run(&input, &reference, size, shift, seed)
        }
        Some(Command::Price { file: Some(file), header, key, json, .. }) => {
            price::frame(&file, &header, kind(key), json)
        }
        Some(Command::Price { gm_type, slot, header, json, .. }) => price::slot(gm_type, slot, &header, json),
        Some(Command::Man) => print(&cli::manual()),
        Some(Command::Completions { shell }) => print(&cli::completions(shell)),
    }
}

/// A key frame, or one that isn't.
fn kind(key: bool) -> Kind {
    if key { Kind::Key } else { Kind::Inter }
}

/// A header's flag and prior.
fn flag_and_prior(header: &Header) -> Result<(u8, [StoredModel; 7]), Failure> {
    let prior = header.prior.as_ref().map_or(Ok(IDENTITIES), |place| lists::models(place).map(|list| list.models))?;
    Ok((header.precision as u8, prior))
}

/// So many threads, or as many as there are processors.
fn threads(asked: Option<u16>) -> usize {
    let processors = || thread::available_parallelism().map_or(1, |count| count.get());
    asked.map_or_else(processors, usize::from)
}

/// The mask of the pictures.
fn mask(seen: &Seen) -> Result<Option<Frame>, Failure> {
    let Some(path) = &seen.mask else { return Ok(None) };
    let opened = frames::open(path)?;
    judged(&opened.name, seen.part(), opened.sides())?;
    Ok(Some(opened.read(seen.part())?))
}

/// Inputs and outputs, before anything is read; standard input can be read once alone.
fn judge<'a>(
    inputs: impl IntoIterator<Item = &'a Path>,
    outputs: impl IntoIterator<Item = &'a Path>,
) -> Result<Files, Failure> {
    let inputs: Vec<&Path> = inputs.into_iter().collect();
    if inputs.iter().filter(|path| **path == Path::new("-")).count() > 1 {
        return Err(Failure::bad("standard input", "it can be read once alone"));
    }
    Files::judge(inputs, outputs)
}
