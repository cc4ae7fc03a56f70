//! Files: each output is there whole or not at all, and nobody else's file is touched.

mod tool;

use std::ffi::OsStr;
use std::fs::{self, Permissions};
use std::io::Write;
use std::os::unix::ffi::OsStrExt;
use std::os::unix::fs::{PermissionsExt, symlink};
use std::process::{Command, Stdio};
use std::thread;
use std::time::Duration;
use tool::{Folder, Said, json, kept, noise, pictures};

/// Status 2 and one line, and the folder as it was, with every byte.
fn refused(folder: &Folder, words: &[&str], line: &str) {
    let all = || folder.names().into_iter().map(|name| (fs::read(folder.path(&name)).ok(), name)).collect::<Vec<_>>();
    let before = all();
    let Said { status, out, error } = folder.belt(words);
    assert_eq!((status, out.as_str(), error.as_str()), (2, "", format!("belt: {line}\n").as_str()), "{words:?}");
    assert!(all() == before, "{words:?}");
}

fn measure<'a>(words: &[&'a str]) -> Vec<&'a str> {
    [&["measure", "still.pgm", "pan.pgm"], words].concat()
}

#[test]
fn an_output_that_is_an_input_is_refused_before_anything_is_read() {
    let folder = pictures("inputs");
    let read = "it is read too, and would be overwritten";
    refused(&folder, &measure(&["--blocks", "still.pgm"]), &format!("still.pgm: {read}"));
    refused(&folder, &measure(&["--header", "./pan.pgm"]), &format!("./pan.pgm: {read}"));
    fs::hard_link(folder.path("still.pgm"), folder.path("hard")).unwrap();
    symlink("still.pgm", folder.path("soft")).unwrap();
    refused(&folder, &measure(&["--blocks", "hard"]), &format!("hard: {read}"));
    refused(&folder, &measure(&["--models", "soft"]), &format!("soft: {read}"));
    // what a shell makes of --blocks rec/*.pgm
    refused(&folder, &["measure", "--blocks", "pan.pgm", "pan.pgm", "still.pgm"], &format!("pan.pgm: {read}"));
    refused(&folder, &["measure", "clip.y4m#0", "clip.y4m#1", "--blocks", "clip.y4m"], &format!("clip.y4m: {read}"));
    folder.write("prior", "0 0 65536 0 0 65536 ".repeat(7));
    refused(&folder, &measure(&["--prior", "prior", "--models", "prior"]), &format!("prior: {read}"));
    refused(&folder, &["convert", "prior", "prior"], &format!("prior: {read}"));
    // nothing was read: the input isn't even a picture
    refused(&folder, &["measure", "prior", "pan.pgm", "--blocks", "prior"], &format!("prior: {read}"));
    let said = run(&folder, "exec \"$0\" measure - pan.pgm --blocks still.pgm < still.pgm");
    assert_eq!((said.status, said.error.as_str()), (2, format!("belt: still.pgm: {read}\n").as_str()));
    let said = run(&folder, "exec \"$0\" list prior >> prior");
    assert_eq!(said.error, "belt: standard output: it is read too, and would be overwritten\n");
}

#[test]
fn two_outputs_that_are_one_file_are_refused() {
    let folder = pictures("twice");
    refused(&folder, &measure(&["--blocks", "o", "--header", "o"]), "o: two outputs are this file");
    refused(&folder, &measure(&["--blocks", "o", "--header", "./o"]), "./o: two outputs are this file");
    refused(&folder, &measure(&["--blocks", "-", "--header", "-"]), "standard output: two outputs are this file");
    refused(&folder, &["practice", "a", "a"], "a: two outputs are this file");
    folder.write("there", "x");
    fs::hard_link(folder.path("there"), folder.path("same")).unwrap();
    refused(&folder, &measure(&["--blocks", "there", "--header", "same"]), "same: two outputs are this file");
    let said = run(&folder, "exec \"$0\" measure still.pgm pan.pgm --blocks there > there");
    assert_eq!(said.error, "belt: there: two outputs are this file\n");
    // a device isn't a file
    assert_eq!(folder.belt(&measure(&["--blocks", "/dev/null", "--header", "/dev/null"])).status, 0);
}

fn run(folder: &Folder, line: &str) -> Said {
    let mut shell = Command::new("bash");
    shell.args(["-c", line, env!("CARGO_BIN_EXE_belt")]).current_dir(&folder.0).stdin(Stdio::null());
    folder.said(shell.output().unwrap())
}

#[test]
fn a_replaced_file_keeps_its_mode_and_a_new_one_has_the_usual() {
    let folder = pictures("modes");
    for mode in [0o600, 0o640, 0o666, 0o755] {
        folder.write("o", "before");
        fs::set_permissions(folder.path("o"), Permissions::from_mode(mode)).unwrap();
        assert_eq!(folder.belt(&measure(&["--blocks", "o"])).status, 0);
        assert_eq!(fs::metadata(folder.path("o")).unwrap().permissions().mode() & 0o777, mode);
        assert_eq!(fs::read(folder.path("o")).unwrap().len(), 512);
    }
    let said = run(&folder, "umask 027; \"$0\" measure still.pgm pan.pgm --blocks new; stat -c %a new");
    assert!(said.out.ends_with("\n640\n"), "{said:?}");
    folder.write("fixed", "before");
    fs::set_permissions(folder.path("fixed"), Permissions::from_mode(0o444)).unwrap();
    refused(&folder, &measure(&["--blocks", "fixed"]), "fixed: it is read-only");
}

#[test]
fn links_are_followed_and_one_to_nothing_is_an_error() {
    let folder = pictures("links");
    folder.write("real", "before");
    symlink("real", folder.path("link")).unwrap();
    assert_eq!(folder.belt(&measure(&["--blocks", "link"])).status, 0);
    assert!(fs::symlink_metadata(folder.path("link")).unwrap().is_symlink());
    assert_eq!(fs::read(folder.path("real")).unwrap().len(), 512);
    symlink("nowhere", folder.path("dangling")).unwrap();
    refused(&folder, &measure(&["--blocks", "dangling"]), "dangling: a link to a file that isn't there");
}

#[test]
fn a_dash_is_standard_output() {
    let folder = pictures("dash");
    let output = folder.command(&measure(&["--blocks", "-"])).output().unwrap();
    assert!(String::from_utf8_lossy(&output.stderr).contains("\nIt moved 6."));
    folder.write("blocks", &output.stdout);
    let said = folder.belt(&["list", "blocks"]);
    assert!(said.status == 0 && said.out.starts_with("frame 1 block 0 count 80\n"), "{said:?}");
    let output = folder.command(&measure(&["--picture", "-"])).output().unwrap();
    assert!(output.stdout.starts_with(b"\x89PNG"));
    let output = folder.command(&["convert", "blocks", "-", "--to", "1"]).output().unwrap();
    assert_eq!((output.stdout.len(), output.stdout[2]), (512, 1));
    assert!(folder.names().iter().all(|name| !name.ends_with(".part")));
    let said = run(&folder, "\"$0\" measure still.pgm pan.pgm --json --models /dev/stdout | grep -c reference");
    assert_eq!((said.out.as_str(), said.error.as_str()), ("8\n", ""), "a line of JSON and seven of models");
}

/// All or none: the second file can't be named, and the first is as it was.
#[test]
fn where_one_file_cannot_be_written_none_is() {
    let folder = pictures("none");
    folder.write("old", "before");
    fs::create_dir(folder.path("folder")).unwrap();
    refused(&folder, &measure(&["--blocks", "old", "--header", "folder"]), "folder: is a directory");
    refused(
        &folder,
        &measure(&["--blocks", "old", "--header", "no/x"]),
        "no/x: No such file or directory (os error 2)",
    );
    // the last comes to stand on a device that is full
    let said = folder.belt(&measure(&["--header", "/dev/full", "--blocks", "old"]));
    assert_eq!((said.status, said.error.as_str()), (2, "belt: /dev/full: No space left on device (os error 28)\n"));
    assert_eq!(fs::read(folder.path("old")).unwrap(), b"before");
    let names = folder.names();
    assert!(names.iter().all(|name| !name.starts_with(".belt")), "{names:?}");
}

/// Runs at the same moment, each with a file of its own in one folder, as in containers that number processes alike.
#[test]
fn runs_beside_each_other_keep_their_own_files() {
    let folder = pictures("beside");
    // a file of a run that was killed, under the name that was once every run's, stays whose it is
    folder.write(".belt-1-0.part", "another's");
    let one = |number: usize| {
        let name = format!("out{number}");
        let frame = (number + 1).to_string();
        let said = folder.belt(&measure(&["--blocks", &name, "--header", &format!("h{number}"), "--frame", &frame]));
        assert_eq!((said.status, said.error.as_str()), (0, ""));
        let blocks = fs::read(folder.path(&name)).unwrap();
        assert_eq!((blocks.len(), usize::from(u16::from_be_bytes([blocks[0], blocks[1]]))), (512, number + 1));
    };
    thread::scope(|scope| {
        for part in 0..4 {
            scope.spawn(move || (0..10).for_each(|number| one(10 * part + number)));
        }
    });
    assert_eq!(fs::read(folder.path(".belt-1-0.part")).unwrap(), b"another's");
    assert_eq!(folder.names().iter().filter(|name| name.ends_with(".part")).count(), 1);
}

/// A signal in the middle of a conversion ends the tool by that signal, and no file is left.
#[test]
fn a_signal_leaves_no_part() {
    use std::os::unix::process::ExitStatusExt;
    let folder = pictures("signals");
    assert_eq!(folder.belt(&measure(&["--blocks", "blocks"])).status, 0);
    let before = folder.names();
    let blocks = fs::read(folder.path("blocks")).unwrap();
    for (name, number) in [("INT", 2), ("TERM", 15), ("HUP", 1)] {
        let mut command = folder.command(&["convert", "-", "out", "--to", "1"]);
        let mut child = command.stdin(Stdio::piped()).stdout(Stdio::null()).spawn().unwrap();
        let mut pipe = child.stdin.take().unwrap();
        pipe.write_all(&blocks.repeat(40)).unwrap();
        let part = |names: Vec<String>| names.iter().any(|name| name.ends_with(".part"));
        while !part(folder.names()) {
            thread::sleep(Duration::from_millis(5));
        }
        Command::new("kill").args([format!("-{name}"), child.id().to_string()]).status().unwrap();
        assert_eq!(child.wait().unwrap().signal(), Some(number), "{name}");
        assert_eq!(folder.names(), before, "{name}");
    }
}

#[test]
fn names_that_are_no_text_are_names() {
    let folder = pictures("odd");
    let odd = OsStr::from_bytes(b"\xFFclip.y4m");
    fs::copy(kept("clip.y4m"), folder.path("").join(odd)).unwrap();
    let mut command = folder.command(&["measure", "--json"]);
    command.arg(OsStr::from_bytes(b"\xFFclip.y4m#0")).arg(OsStr::from_bytes(b"\xFFclip.y4m#1"));
    command.arg(OsStr::from_bytes(b"--blocks=\xFFout")).arg(OsStr::from_bytes(b"--picture=\xFF\xEF\xBF\xBF.svg"));
    let said = folder.said(command.output().unwrap());
    assert_eq!((said.status, said.error.as_str()), (0, ""), "{said:?}");
    assert_eq!(json(&said.out)["status"], "measured");
    assert_eq!(fs::read(folder.0.join(OsStr::from_bytes(b"\xFFout"))).unwrap().len(), 512);
    let svg = fs::read_to_string(folder.0.join(OsStr::from_bytes(b"\xFF\xEF\xBF\xBF.svg"))).unwrap();
    assert!(svg.ends_with("</svg>\n"));
    for name in [&b"\xFFout"[..], b"\xFF\xEF\xBF\xBF.svg", b"\xFFclip.y4m"] {
        fs::remove_file(folder.0.join(OsStr::from_bytes(name))).unwrap();
    }
}

/// A folder's pictures in the order of their numbers; a folder among them is none.
#[test]
fn a_folder_is_its_pictures_in_order() {
    let folder = Folder::new("order");
    fs::create_dir_all(folder.path("clip/x.pgm")).unwrap();
    for number in [1, 2, 10, 20] {
        folder.write(&format!("clip/img{number}.pgm"), noise(|_, _| [40 - 2 * number.min(11), 0]));
    }
    folder.write("clip/notes.txt", "no picture");
    let said = folder.belt(&["measure", "clip"]);
    let lines: Vec<&str> = said.out.lines().map(|line| line.split(": ").next().unwrap()).collect();
    let wanted =
        ["clip/img1.pgm to clip/img2.pgm", "clip/img2.pgm to clip/img10.pgm", "clip/img10.pgm to clip/img20.pgm"];
    assert_eq!((said.status, &lines[..3]), (0, &wanted[..]), "{said:?}");
    // named itself, it is a folder
    folder.write("clip/x.pgm/a.pgm", noise(|_, _| [0, 0]));
    folder.write("clip/x.pgm/b.pgm", noise(|_, _| [2, 0]));
    assert!(folder.belt(&["measure", "clip/x.pgm"]).out.starts_with("clip/x.pgm/a.pgm to clip/x.pgm/b.pgm: 160×128"));
}
