//! Recordings: what 'belt track' stores pair by pair is what 'belt measure' stores of the same frames, each with the
//! models before it as its prior, and 'belt replay' reads it back or says what is wrong with it.

mod tool;

use serde_json::Value;
use std::fs;
use std::io::{Read, Write};
use std::process::{Command, Stdio};
use tool::drawn::{HEIGHT, WIDTH, load, y4m};
use tool::{Folder, json};

/// The bytes of a head, of a record without its header, and of a check.
const HEAD: usize = 16;
const FIXED: usize = 32;
const CHECK: usize = 4;

/// A clip that runs, turns blank, shows another scene, and has a frame that lost some bytes.
fn clip(folder: &Folder) -> usize {
    let at = |i: u8| load(1, [5.25 * f64::from(i), -2.0 * f64::from(i)]);
    let (blank, other) = (vec![90.0; WIDTH * HEIGHT], load(5, [0.0; 2]));
    let frames = [at(0), at(1), at(2), at(3), at(4), blank, other, at(5), at(6), at(7)];
    let mut clip = y4m(&frames);
    let size = 6 + WIDTH * HEIGHT;
    // of the frame before the last
    let end = clip.len() - size;
    clip.drain(end - 1000..end);
    folder.write("clip.y4m", clip);
    frames.len() - 1
}

/// The records of a file of headers: what each is of, and its header.
fn records(bytes: &[u8]) -> Vec<(u8, Vec<u8>)> {
    let (mut records, mut at) = (Vec::new(), HEAD);
    while at < bytes.len() {
        let bits = u16::from_be_bytes([bytes[at + 26], bytes[at + 27]]);
        let end = at + FIXED + usize::from(bits).div_ceil(8);
        records.push((bytes[at], bytes[at + FIXED..end].to_vec()));
        at = end + CHECK;
    }
    records
}

/// Lines of JSON that a run prints which ends well.
fn lines(folder: &Folder, words: &[&str]) -> Vec<Value> {
    let said = folder.belt(words);
    assert_eq!((said.status, said.error.as_str()), (0, ""), "{said:?}");
    said.out.lines().map(json).collect()
}

#[test]
fn a_recording_is_what_each_pair_stores_and_reads_back() {
    let folder = Folder::new("record");
    let pairs = clip(&folder);
    let track = |key: &str, threads: &str| {
        let words =
            ["track", "clip.y4m", "--json", "--blocks", "b", "--headers", "h", "--key", key, "--threads", threads];
        let found = lines(&folder, &words);
        (found, fs::read(folder.path("b")).unwrap(), fs::read(folder.path("h")).unwrap())
    };
    let (found, blocks, headers) = track("3", "1");
    assert_eq!(found.len(), pairs);
    let (_, same_blocks, same_headers) = track("3", "3");
    assert!(blocks == same_blocks && headers == same_headers, "threads change nothing");
    let replayed = lines(&folder, &["replay", "h", "--blocks", "b", "--json"]);
    let (keys, read): (Vec<&Value>, Vec<&Value>) = replayed.iter().partition(|line| line["record"] == "key");
    assert_eq!(keys.iter().map(|line| line["pair"].as_u64().unwrap()).collect::<Vec<_>>(), [0, 3, 6]);
    assert_eq!(read.len(), pairs);
    let stored = records(&headers);
    assert_eq!((stored.len(), stored.last().unwrap().0), (pairs + 3 + 1, 7));
    let mut own = stored.iter().filter(|(of, _)| ![0, 7].contains(of));
    let (mut rest, mut has_prior, mut bad) = (&blocks[..], false, 0);
    for (pair, (line, found)) in read.iter().zip(&found).enumerate() {
        let (_, header) = own.next().unwrap();
        assert_eq!((&line["status"], &line["pair"]), (&found["status"], &found["pair"]), "{line} {found}");
        let number = (pair + 1).to_string();
        assert_eq!(line["number"], pair + 1);
        let name = |frame: &Value| format!("clip.y4m#{frame}");
        assert_eq!(
            [name(&line["first"]), name(&line["second"])],
            ["first", "second"].map(|n| found[n].as_str().unwrap().to_string())
        );
        has_prior &= pair % 3 > 0;
        if line["status"] == "bad" {
            assert!(header.is_empty() && line["models"].is_null() && line["samples"] == 0, "{line}");
            bad += 1;
            continue;
        }
        // the same pair alone, with the models before it
        let (first, second) = (name(&line["first"]), name(&line["second"]));
        let mut words = vec!["measure", &first, &second, "--json", "--frame", &number];
        words.extend(["--blocks", "own.b", "--header", "own.h", "--models", "own.m"]);
        if has_prior {
            words.extend(["--prior", "prior.m"]);
        }
        let alone = &lines(&folder, &words)[0];
        let own_blocks = fs::read(folder.path("own.b")).unwrap();
        assert!(rest.starts_with(&own_blocks), "blocks of pair {pair}");
        rest = &rest[own_blocks.len()..];
        assert_eq!(*header, fs::read(folder.path("own.h")).unwrap(), "header of pair {pair}");
        let models = fs::read_to_string(folder.path("own.m")).unwrap();
        for (model, text) in line["models"].as_array().unwrap().iter().zip(models.lines().skip(1)) {
            let numbers: Vec<String> = model["numbers"].as_array().unwrap().iter().map(Value::to_string).collect();
            let wanted = format!("{} {} #", model["type"].as_str().unwrap(), numbers.join(" "));
            assert!(text.starts_with(&wanted), "{text}: {wanted}");
        }
        assert_eq!((&line["samples"], &line["samples_read"]), (&300.into(), &true.into()), "{alone}");
        fs::rename(folder.path("own.m"), folder.path("prior.m")).unwrap();
        has_prior = true;
    }
    assert!(rest.is_empty() && bad == 2, "{bad} are bad");
    // in words, and by the headers alone
    let said = folder.belt(&["replay", "h", "--blocks", "b"]);
    let told: Vec<&str> = said.out.lines().collect();
    assert_eq!(told[0], "key frame ahead of pair 0: no bits, the prior is set back; it reads back");
    assert!(
        told[1].starts_with("pair 0, frame 0 to 1, number 1: measured; stored: translation, moved 5.25"),
        "{said:?}"
    );
    assert!(told[1].ends_with(" and 300 samples read back"), "{said:?}");
    assert_eq!(*told.last().unwrap(), "9 pairs, 2 of them bad, and 3 key frames: blocks and headers read back");
    let said = folder.belt_fed(&["replay", "-"], &headers);
    assert!(said.status == 0 && said.out.ends_with(": headers read back\n"), "{said:?}");
    // without a key frame but the first
    let (_, same_blocks, plain) = track("0", "2");
    let kinds: Vec<u8> = records(&plain).iter().map(|record| record.0).collect();
    assert_eq!((kinds[0], kinds[1..].contains(&0), same_blocks == blocks), (0, false, true));
}

#[test]
fn a_recording_that_is_damaged_is_refused() {
    let folder = Folder::new("damaged");
    let frames: Vec<_> = (0..3).map(|i| load(1, [3.0 * f64::from(i), 0.0])).collect();
    folder.write("clip.y4m", y4m(&frames));
    let said = folder.belt(&["track", "clip.y4m", "--fast", "--quiet", "--blocks", "b", "--headers", "h"]);
    assert_eq!((said.status, said.error.as_str()), (0, ""));
    let (blocks, headers) = (fs::read(folder.path("b")).unwrap(), fs::read(folder.path("h")).unwrap());
    let replay = || folder.belt(&["replay", "h", "--blocks", "b"]);
    assert_eq!(replay().status, 0);
    for at in (0..headers.len()).step_by(7) {
        let mut damaged = headers.clone();
        damaged[at] ^= 0x10;
        folder.write("h", &damaged);
        let said = replay();
        assert!(
            said.status == 2 && said.error.starts_with("belt: h, byte ") && said.error.lines().count() == 1,
            "{at}: {said:?}"
        );
        folder.write("h", &headers[..at]);
        let said = replay();
        let wanted = format!("belt: h, byte {at}: it ends here, and more belongs to it: it was cut short\n");
        assert_eq!((said.status, said.error), (2, wanted));
    }
    folder.write("h", &headers);
    for at in (0..blocks.len()).step_by(397) {
        let mut damaged = blocks.clone();
        damaged[at] ^= 0x10;
        folder.write("b", &damaged);
        let said = replay();
        assert!([1, 2].contains(&said.status) && said.error.starts_with("belt: b, byte "), "{at}: {said:?}");
        folder.write("b", &blocks[..at]);
        assert!(replay().error.starts_with(&format!("belt: b, byte {at}: it ends here")));
    }
    for (words, said) in [
        (&["replay", "clip.y4m"][..], "clip.y4m, byte 0: it is no file of headers"),
        (&["replay", "none"], "none: No such file"),
        (&["replay", "-", "--blocks", "-"], "standard input: it can be read once alone"),
        (&["track", "clip.y4m", "--blocks", "x", "--headers", "x"], "x: two outputs are this file"),
        (&["track", "clip.y4m", "--headers", "clip.y4m"], "clip.y4m: it is read too"),
        (&["track", "clip.y4m", "--key", "3"], "the command line: The following required arguments"),
    ] {
        let own = folder.belt(words);
        assert!(own.status == 2 && own.error.starts_with(&format!("belt: {said}")), "{own:?}");
    }
    assert_eq!(folder.names(), ["b", "clip.y4m", "h"]);
}

/// A recording is there whole or not at all; on standard output it stands alone.
#[test]
fn a_recording_that_is_ended_leaves_nothing() {
    let folder = Folder::new("ended");
    let frames: Vec<_> = (0..4).map(|i| load(1, [f64::from(i), 0.0])).collect();
    let (clip, size) = (y4m(&frames), 6 + WIDTH * HEIGHT);
    for signal in ["TERM", "INT", "HUP"] {
        let mut command = folder.command(&["track", "-", "--fast", "--blocks", "b", "--headers", "h"]);
        let mut child = command.stdin(Stdio::piped()).stdout(Stdio::piped()).spawn().unwrap();
        let mut pipe = child.stdin.take().unwrap();
        pipe.write_all(&clip[..clip.len() - 2 * size + 6]).unwrap();
        child.stdout.as_mut().unwrap().read_exact(&mut [0; 22]).unwrap();
        assert_eq!(folder.names().len(), 2, "blocks and headers wait");
        let killed = Command::new("kill").args([&format!("-{signal}"), &child.id().to_string()]).status();
        assert!(killed.unwrap().success() && !child.wait().unwrap().success());
        assert_eq!(folder.names(), [""; 0], "{signal}");
    }
    // nothing can be measured, nothing is stored
    let said = folder.belt_fed(&["track", "-", "--blocks", "b", "--headers", "h"], &clip[..clip.len() - 3 * size + 9]);
    assert_eq!((said.status, folder.names()), (2, vec![]));
    let mut command = folder.command(&["track", "-", "--fast", "--headers", "-"]);
    let mut child = command.stdin(Stdio::piped()).stdout(Stdio::piped()).stderr(Stdio::piped()).spawn().unwrap();
    child.stdin.take().unwrap().write_all(&clip).unwrap();
    let output = child.wait_with_output().unwrap();
    assert!(output.status.success() && output.stdout.starts_with(b"BELTRUN\x01"));
    assert!(String::from_utf8_lossy(&output.stderr).contains("3 pairs: 3 measured"));
    folder.write("h", &output.stdout);
    assert_eq!(folder.belt(&["replay", "h"]).status, 0);
}
