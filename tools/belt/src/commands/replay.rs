//! belt replay: what a recording holds, read back.

use crate::failure::Failure;
use crate::lists;
use crate::model::{self, IDENTITY, TYPES};
use crate::output::{self, Out, shown, unwritten};
use crate::report::json;
use crate::report::words::{count, many, moved};
use record::{Of, Player, Replayed};
use serde::Serialize;
use std::io::{BufWriter, Write};
use std::path::{Path, PathBuf};

pub fn run(headers: &Path, blocks: Option<&PathBuf>, json: bool) -> Result<(), Failure> {
    super::judge([headers].into_iter().chain(blocks.map(PathBuf::as_path)), [])?;
    let opened = |place: &Path| Ok::<_, Failure>((shown(place), lists::open(place)?));
    let samples = blocks.map(|place| opened(place)).transpose()?;
    let mut player = Player::begin(opened(headers)?, samples)?;
    let mut out = BufWriter::new(Out);
    let (mut pairs, mut keys, mut bad) = (0, 0, 0);
    while !output::is_closed() {
        let record = player.record();
        if !matches!(record, Ok(Some(_))) {
            out.flush().map_err(unwritten)?;
        }
        let Some(replayed) = record? else {
            let whole = if blocks.is_some() { "blocks and headers" } else { "headers" };
            let text = format!(
                "{}, {} of them bad, and {}: {whole} read back\n",
                many(pairs, "pair"),
                count(bad),
                many(keys, "key frame")
            );
            return if json { Ok(()) } else { output::print(&text) };
        };
        match replayed.record.of {
            Of::Key => keys += 1,
            of => (pairs, bad) = (pairs + 1, bad + usize::from(of == Of::Bad)),
        }
        let line = if json { for_programs(&replayed, blocks.is_some()) } else { in_words(&replayed, blocks.is_some()) };
        out.write_all(line.as_bytes()).map_err(unwritten)?;
    }
    Ok(())
}

fn in_words(Replayed { record, pair, models }: &Replayed, has_blocks: bool) -> String {
    let ((first, second), number) = (record.frames, record.number);
    let place = format!("pair {pair}, frame {first} to {second}, number {number}");
    let status = match record.of {
        Of::Key => return format!("key frame ahead of pair {pair}: no bits, the prior is set back; it reads back\n"),
        Of::Bad => return format!("{place}: bad; nothing is stored\n"),
        Of::Pair(status) => status.name(),
        Of::End => return String::new(),
    };
    let times = 1usize << record.halvings;
    let own = model::of_grid(models.types[0], models.models[0].x_first(models.types[0]));
    let own = (0..record.halvings).fold(own, |model, _| model.doubled());
    let middle = own.middle(usize::from(record.sides.0) * times, usize::from(record.sides.1) * times);
    let samples = many(record.samples.into(), "sample");
    let samples = if has_blocks { format!("and {samples} ") } else { String::new() };
    let stored = match models.types[0] {
        IDENTITY => "identity, as no motion was elected".into(),
        gm_type => format!("{}, {}", TYPES[usize::from(gm_type)], moved(&own, middle)),
    };
    let read = if has_blocks { "read" } else { "reads" };
    format!("{place}: {status}; stored: {stored}; its header of {} {samples}{read} back\n", many(models.bits, "bit"))
}

fn for_programs(Replayed { record, pair, models }: &Replayed, has_blocks: bool) -> String {
    #[derive(Serialize)]
    struct Line {
        record: &'static str,
        pair: u64,
        number: u16,
        first: u64,
        second: u64,
        status: Option<&'static str>,
        bits: usize,
        models: Option<Vec<json::Model>>,
        samples: u16,
        samples_read: bool,
    }
    let (name, status) = match record.of {
        Of::Key => ("key", None),
        Of::Pair(status) => ("pair", Some(status.name())),
        Of::Bad => ("pair", Some("bad")),
        Of::End => ("end", None),
    };
    let is_stored = matches!(record.of, Of::Pair(_));
    json::line(&Line {
        record: name,
        pair: *pair,
        number: record.number,
        first: record.frames.0,
        second: record.frames.1,
        status,
        bits: models.bits,
        models: is_stored.then(|| models.types.iter().zip(&models.models).map(json::model).collect()),
        samples: record.samples,
        samples_read: has_blocks && is_stored,
    })
}
