//! A program as a user of the crate writes one: it measures a belt to practise on, and meets a refusal.

use belt::{Buffers, Form, GmType, Refusal, Report, Settings, Task};
use std::error::Error;

const SIDES: (usize, usize) = (96, 80);

fn report(earlier: &[u16], later: &[u16], settings: Settings) -> Result<Report, Refusal> {
    let task = Task { settings, ..Task::new(earlier, later, SIDES.0, SIDES.1) };
    belt::job(&task, &mut Buffers::new(SIDES.0, SIDES.1).lend())
}

/// Rows and forms may be added, so there is an arm for the others.
fn why(refusal: Refusal) -> String {
    match refusal {
        Refusal::WrongLength(list) => format!("{} has {} elements, not {}", list.name, list.given, list.wanted),
        other => other.to_string(),
    }
}

fn form(form: Form) -> &'static str {
    match form {
        Form::One => "words with their class",
        Form::Two => "a byte of class beside each word",
        _ => "a form that came later",
    }
}

fn main() -> Result<(), Box<dyn Error>> {
    let (mut earlier, mut later) = (vec![0; SIDES.0 * SIDES.1], vec![0; SIDES.0 * SIDES.1]);
    belt::make_practice_planes(1, SIDES.0, SIDES.1, -2, 4, &mut earlier, &mut later)?;
    let elected = report(&earlier, &later, Settings::elect(5))?;
    let Report { samples, bits, .. } = elected;
    println!("{}, {:?}, {samples} samples, {bits} bits", elected.gm_type(), elected.model().shift());
    let back = report(&later, &earlier, Settings::fit(6, GmType::Translation).trim())?;
    println!("moved since the reference: {:?}", back.model().moved_since_reference(0.0, 0.0));
    println!("{}", why(report(&earlier[1..], &later, Settings::default()).unwrap_err()));
    println!("{}", why(report(&earlier, &later, Settings::fit(5, GmType::Identity)).unwrap_err()));
    println!("{}, {}", form(Form::try_from(1)?), form(Form::Two));
    println!("library {}", belt::library_version());
    Ok(())
}
