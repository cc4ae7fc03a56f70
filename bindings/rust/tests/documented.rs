//! Every public call has an example in its own documentation, which `cargo test` runs, and what an order may add to is
//! marked.

use std::fs;
use std::path::Path;

/// The lines of the crate's sources but for the library's own calls, which aren't public.
fn sources() -> Vec<(String, Vec<String>)> {
    let folder = Path::new(env!("CARGO_MANIFEST_DIR")).join("src");
    let mut files: Vec<_> = fs::read_dir(folder).unwrap().map(|entry| entry.unwrap().path()).collect();
    files.sort();
    files.retain(|path| path.file_name().unwrap() != "raw.rs");
    let lines = |path: &Path| fs::read_to_string(path).unwrap().lines().map(str::to_owned).collect();
    files.iter().map(|path| (path.display().to_string(), lines(path))).collect()
}

/// What stands directly above a line: its documentation and attributes.
fn above(lines: &[String], line: usize) -> Vec<&str> {
    let attached = |text: &&str| text.starts_with("///") || text.starts_with("#[");
    lines[..line].iter().rev().map(|text| text.trim_start()).take_while(attached).collect()
}

#[test]
fn every_call_has_an_example() {
    let (mut calls, mut without) = (0, vec![]);
    for (file, lines) in sources() {
        for (i, text) in lines.iter().enumerate() {
            let text = text.trim_start();
            if !text.starts_with("pub fn ") && !text.starts_with("pub const fn ") {
                continue;
            }
            calls += 1;
            if above(&lines, i).iter().filter(|text| text.starts_with("/// ```")).count() < 2 {
                without.push(format!("{file}:{}: {text}", i + 1));
            }
        }
    }
    assert!(calls > 80, "only {calls} calls were found");
    assert!(without.is_empty(), "without an example: {without:#?}");
}

#[test]
fn what_may_grow_is_marked() {
    let sources = sources();
    for name in ["Settings", "Report", "Searched", "Models", "Run", "RunReader", "Form", "Refusal"] {
        let declared = ["struct", "enum"].map(|kind| format!("pub {kind} {name}"));
        let is_it = |text: &str| {
            declared
                .iter()
                .any(|start| text.strip_prefix(start).is_some_and(|rest| !rest.starts_with(char::is_alphanumeric)))
        };
        let (lines, at) = sources
            .iter()
            .find_map(|(_, lines)| Some((lines, lines.iter().position(|text| is_it(text))?)))
            .unwrap_or_else(|| panic!("{name} isn't declared"));
        assert!(above(lines, at).contains(&"#[non_exhaustive]"), "{name} isn't marked");
    }
}
