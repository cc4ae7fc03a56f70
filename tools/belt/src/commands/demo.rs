//! belt demo: a belt that is drawn, measured and told.

use crate::demo;
use crate::failure::Failure;
use crate::measure::{Job, measure};
use crate::output::{Files, print, shown};
use crate::picture;
use crate::tracked::plot::Plot;
use crate::tracked::{Pair, Row, Scale, Summary};
use frames::Frame;
use std::fs;
use std::path::Path;

/// The pair of which a picture is drawn: the belt runs, the can rolls, the film flutters.
const PICTURED: usize = 4;

pub fn run(folder: &Path) -> Result<(), Failure> {
    let made = !folder.exists();
    fs::create_dir_all(folder).map_err(|error| Failure::bad(shown(folder), error))?;
    let left = leave(folder);
    if made && left.is_err() {
        // nothing was written, so it is empty
        let _ = fs::remove_dir(folder);
    }
    left
}

fn leave(folder: &Path) -> Result<(), Failure> {
    let [clip, table, plot, seen] =
        ["clip.y4m", "motion.csv", "motion.svg", "measured.png"].map(|name| folder.join(name));
    let mut files = Files::judge([], [&*clip, &*table, &*plot, &*seen])?;
    let frames = demo::frames();
    let (mut rows, mut drawn, mut summary) = (Vec::new(), Plot::new(), Summary::default());
    for (number, two) in frames.windows(2).enumerate() {
        let pair = pair(number, &two[0], &two[1])?;
        print(&pair.line())?;
        let [right, down] = demo::step(number);
        let row = Row::of(&pair).with([("drawn_right", right), ("drawn_down", down)]);
        let lines = if number == 0 { [row.names(), row.values()] } else { [Ok(Vec::new()), row.values()] };
        for line in lines {
            rows.extend(line.map_err(|error| Failure::bad(shown(&table), error))?);
        }
        drawn.add(&pair);
        summary.add(&pair);
        if let Some(measured) = pair.found.ok().filter(|_| number == PICTURED) {
            files.add(&seen, &picture::draw(&picture::Kind::Png, &measured, &two[0]))?;
        }
    }
    let steps: Vec<[f64; 2]> = (0..demo::FRAMES - 1).map(demo::step).collect();
    let svg = drawn.svg("the belt of the demo, as drawn and as found", &steps);
    files.add(&clip, &demo::clip(&frames))?;
    files.add(&table, &rows)?;
    files.add(&plot, svg.map_err(|error| Failure::bad(shown(&plot), error))?.as_bytes())?;
    print(&summary.text())?;
    let [clip, table, plot, seen] = [clip, table, plot, seen].map(shown);
    print(&format!(
        "\n{table}: what was drawn and what was found\n{plot}: the same as a plot\n{seen}: frames {PICTURED} and {}, an arrow \
         for each block\n{clip}: the clip; 'belt track {clip}' measures it\n",
        PICTURED + 1
    ))?;
    files.keep()
}

fn pair(number: usize, first: &Frame, second: &Frame) -> Result<Pair, Failure> {
    let measured = measure(&Job::electing(None, false), first, second)?;
    Ok(Pair {
        number: number as u64,
        first: first.name.clone(),
        second: second.name.clone(),
        frames: (number as u64, number as u64 + 1),
        scale: Scale { rate: Some(f64::from(demo::RATE)), millimetres: None },
        found: Ok(measured),
    })
}
