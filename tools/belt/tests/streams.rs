//! Streams: slow pipes, readers that end, and blocks in bounded memory.

mod tool;

use std::fs;
use std::io::{Read, Write};
use std::process::{Command, Stdio};
use std::thread;
use std::time::Duration;
use tool::{Folder, Said, json, kept, pictures};

/// A picture that comes through a pipe in pieces of one byte.
#[test]
fn a_slow_pipe_is_read_whatever_its_pieces() {
    let folder = pictures("slow");
    let picture = |name: &str| fs::read(kept(name)).unwrap();
    let png = {
        folder.belt(&["measure", "still.pgm", "pan.pgm", "--picture", "p.png"]);
        fs::read(folder.path("p.png")).unwrap()
    };
    folder.write("same.png", &png);
    for (bytes, other) in [(picture("still.pgm"), "pan.pgm"), (picture("clip.y4m"), "clip.y4m#1"), (png, "same.png")] {
        let mut command = folder.command(&["measure", "-", other, "--json", "--crop", "0,0,64,48"]);
        let mut child = command.stdin(Stdio::piped()).stdout(Stdio::piped()).stderr(Stdio::piped()).spawn().unwrap();
        let mut pipe = child.stdin.take().unwrap();
        let (slow, rest) = bytes.split_at(600);
        for byte in slow.chunks(1) {
            pipe.write_all(byte).unwrap();
            thread::sleep(Duration::from_millis(1));
        }
        pipe.write_all(rest).unwrap();
        drop(pipe);
        let said = folder.said(child.wait_with_output().unwrap());
        assert_eq!((said.status, said.error.as_str()), (0, ""), "{other}");
        assert_eq!(json(&said.out)["width"], 64);
    }
}

/// Runs a line of a shell with 48 MB of memory, in which as many blocks wouldn't fit.
fn limited(folder: &Folder, line: &str) -> Said {
    let mut shell = Command::new("bash");
    shell.args(["-c", &format!("ulimit -v 49152; {line}"), env!("CARGO_BIN_EXE_belt")]).current_dir(&folder.0);
    folder.said(shell.output().unwrap())
}

#[test]
fn blocks_go_through_in_bounded_memory() {
    let folder = pictures("bounded");
    assert_eq!(folder.belt(&["measure", "still.pgm", "pan.pgm", "--blocks", "one"]).status, 0);
    folder.write("some", fs::read(folder.path("one")).unwrap().repeat(1024));
    let many = "for i in {1..100}; do cat some; done";
    let said = limited(&folder, &format!("({many}) | \"$0\" list - | tail -1"));
    assert_eq!((said.out.as_str(), said.error.as_str()), ("7 9 -24 48 0\n", ""));
    let said = limited(&folder, &format!("({many}) | \"$0\" convert - - --to 1 | wc -c"));
    assert_eq!(said.out.trim(), (100 * 1024 * 512).to_string(), "{said:?}");
    assert_eq!(said.error, "standard output: 102,400 frames, 102,400 blocks\n");
}

/// The first lines come while the blocks still do, and a reader that ends is no failure.
#[test]
fn what_is_listed_comes_at_once_and_may_be_left() {
    let folder = pictures("left");
    assert_eq!(folder.belt(&["measure", "still.pgm", "pan.pgm", "--blocks", "one"]).status, 0);
    let one = fs::read(folder.path("one")).unwrap();
    let mut command = folder.command(&["list", "-"]);
    let mut child = command.stdin(Stdio::piped()).stdout(Stdio::piped()).stderr(Stdio::piped()).spawn().unwrap();
    let mut pipe = child.stdin.take().unwrap();
    pipe.write_all(&one.repeat(64)).unwrap();
    let mut first = [0; 24];
    child.stdout.as_mut().unwrap().read_exact(&mut first).unwrap();
    assert_eq!(&first, b"frame 1 block 0 count 80");
    drop(child.stdout.take());
    let _ = pipe.write_all(&one.repeat(64));
    drop(pipe);
    let said = folder.said(child.wait_with_output().unwrap());
    assert_eq!((said.status, said.error.as_str()), (0, ""));
}

#[test]
fn memory_that_runs_out_is_a_message() {
    let folder = Folder::new("memory");
    let (mut ended, mut done) = (0, 0);
    for limit in (1..20).map(|step| step * 2048) {
        let line = format!("ulimit -v {limit}; exec \"$0\" practice a b --size 1024x1024");
        let mut shell = Command::new("bash");
        shell.args(["-c", &line, env!("CARGO_BIN_EXE_belt")]).current_dir(&folder.0);
        let output = shell.output().unwrap();
        let error = String::from_utf8_lossy(&output.stderr);
        // too little for the program or a thread to begin with is the loader's or the language's own to say
        if error.contains("belt: out of memory") && !error.contains("alternative stack") {
            assert_eq!((output.status.code(), &*error), (Some(2), "belt: out of memory\n"), "{limit}");
            ended += 1;
        }
        if output.status.success() {
            done += 1;
            ["a", "b"].into_iter().for_each(|name| fs::remove_file(folder.path(name)).unwrap());
        }
        assert_eq!(folder.names(), [""; 0], "{limit}: {error}");
    }
    assert!(ended > 1 && done > 1, "{ended} ended, {done} done");
}
