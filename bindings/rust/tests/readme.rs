//! The Rust snippets of `bindings/README.md`, which the calls below are, line by line.

use belt::{IDENTITIES, METAL, StoredModel};
use std::error::Error;

/// The snippets in fences that say `rust`.
fn snippets(page: &str) -> Vec<&str> {
    page.split("```rust\n").skip(1).map(|rest| rest.split("```").next().unwrap()).collect()
}

#[test]
fn they_stand_here() {
    let plain = |text: &str| text.split_whitespace().collect::<Vec<_>>().join(" ");
    let own = plain(include_str!("readme.rs"));
    let snippets = snippets(include_str!("../../README.md"));
    assert_eq!(snippets.len(), 2);
    for snippet in snippets {
        assert!(own.contains(&plain(snippet)), "this isn't run: {snippet}");
    }
}

#[test]
fn they_run() -> Result<(), Box<dyn Error>> {
    let (width, height) = (96, 80);
    let (mut earlier, mut later) = (vec![0; width * height], vec![0; width * height]);
    belt::make_practice_planes(1, width, height, -2, 4, &mut earlier, &mut later)?;
    let classes = [METAL; 30];

    use belt::{Buffers, GmType, Settings, Task};

    let mut buffers = Buffers::new(width, height);
    let settings = Settings::fit(5, GmType::Affine).trim(); // or Settings::elect(5)
    let task = Task { settings, classes: &classes, ..Task::new(&earlier, &later, width, height) };
    let report = belt::job(&task, &mut buffers.lend())?; // a refusal is the table's row, and names the list that is wrong
    let model = report.model();
    println!("{:?}, {} of {} agree", model.shift(), model.agreeing(&buffers.words, 0.25), report.samples);

    assert_eq!((model.shift().u, model.shift().v, report.samples), (4.0, -2.0, 30));
    let (types, mut models, mut header) = ([1, 0, 0, 0, 0, 0, 0], IDENTITIES, [0; belt::HEADER_BYTES]);
    models[0] = StoredModel([8192, -8192, 65536, 0, 0, 65536]);

    use belt::{Form, Kind, Precision, Run, RunReader, TO_FORM_2};

    let mut run = Run::start(Precision::High, Form::One)?;
    let mut reader = RunReader::start(Precision::High, Form::One)?;
    let bits = run.frame(Kind::Inter, &types, &models, 0, &mut header)?;
    let read = reader.read(Kind::Inter, &header, 0)?; // the same models, and the same prior from here on
    run.switch(TO_FORM_2)?; // from here on film can be stored
    let report = run.job(&task, &mut buffers.lend())?; // with the run's prior, flag and form

    assert_eq!((bits, read.bits, read.models), (17, 17, models));
    assert_eq!(run.prior(), &report.models);
    Ok(())
}
