//! Standard output that is full: one line, status 2, and no file left behind. One that nobody reads: no word.
//!
//! The one test of its program: a child that another test begins at the same moment would hold the pipe's other end.

mod tool;

use std::fs::File;
use std::process::{Command, Stdio};

#[test]
fn output_that_is_full_or_closed() {
    let folder = tool::pictures("bad-output");
    folder.belt(&["measure", "still.pgm", "pan.pgm", "--type", "affine", "--blocks", "blocks", "--header", "header"]);
    let before = folder.names();
    let commands: [&[&str]; 8] = [
        &["measure", "still.pgm", "pan.pgm", "--type", "affine", "--picture", "o.png", "--blocks", "o.blocks"],
        &["measure", "still.pgm", "pan.pgm", "turn.pgm", "--type", "affine", "--json", "--blocks", "o.blocks"],
        &["list", "blocks"],
        &["convert", "blocks", "o.blocks", "--to", "1"],
        &["read-header", "header"],
        &["practice", "o1.pgm", "o2.pgm"],
        &["price", "--type", "affine"],
        &["--help"],
    ];
    for words in commands {
        let mut full = folder.command(words);
        let said = folder.said(full.stdout(File::options().write(true).open("/dev/full").unwrap()).output().unwrap());
        let line = "belt: standard output: No space left on device (os error 28)\n";
        assert_eq!((said.status, said.error.as_str()), (2, line), "{words:?}");

        assert_eq!(folder.names(), before, "{words:?}");

        // a pipe whose reader has ended: nothing is said, and what was to be stored is
        let mut ended = Command::new("true").stdin(Stdio::piped()).spawn().unwrap();
        let pipe = ended.stdin.take().unwrap();
        ended.wait().unwrap();
        let said = folder.said(folder.command(words).stdout(Stdio::from(pipe)).output().unwrap());
        assert_eq!((said.status, said.error.as_str()), (0, ""), "{words:?}");
        let stored = words.iter().filter(|word| word.starts_with('o')).count();
        assert_eq!(folder.names().len(), before.len() + stored, "{words:?}");
        for name in words.iter().filter(|word| word.starts_with('o')) {
            std::fs::remove_file(folder.path(name)).unwrap();
        }
    }

    // standard error that can't be written changes nothing
    let mut mute = folder.command(&["measure", "no", "pan.pgm"]);
    let status = mute.stderr(File::options().write(true).open("/dev/full").unwrap()).status().unwrap();
    assert_eq!(status.code(), Some(2));
    let mut mute = folder.command(&["measure", "still.pgm", "pan.pgm", "--blocks", "-"]);
    let said = mute.stderr(File::options().write(true).open("/dev/full").unwrap()).output().unwrap();
    assert_eq!((said.status.code(), said.stdout.len()), (Some(0), 512));
}
