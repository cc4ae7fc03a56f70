//! Bad input of every kind: one line on standard error that says what and where, status 2, and no file left behind.

mod tool;

use std::process::Command;
use tool::{Folder, Said};

/// One line, status 2, nothing printed, and the folder as it was.
fn bad(folder: &Folder, words: &[&str], line: &str) {
    let before = folder.names();
    let said = folder.belt(words);
    assert_eq!(
        (said.status, said.out.as_str(), said.error.as_str()),
        (2, "", format!("belt: {line}\n").as_str()),
        "{words:?}"
    );
    assert_eq!(folder.names(), before, "{words:?}");
}

/// The same for `measure X still.pgm` and `measure still.pgm X`, with everything to store named.
fn bad_picture(folder: &Folder, name: &str, line: &str) {
    let stores =
        ["--type", "rotzoom", "--picture", "o.png", "--blocks", "o.blocks", "--header", "o.h", "--models", "o.m"];
    for pair in [[name, "still.pgm"], ["still.pgm", name]] {
        bad(folder, &[&["measure"], &pair[..], &stores].concat(), line);
    }
}

#[test]
fn pictures() {
    let folder = tool::pictures("bad-pictures");
    let files: [(&str, &[u8], &str); 14] = [
        ("empty", b"", "it is empty; it must be PNG, PGM (P5), PPM (P6) or Y4M"),
        ("text", b"hello", "it begins with 68 65 6C 6C; it must be PNG, PGM (P5), PPM (P6) or Y4M"),
        ("colour", b"P6 160 128 255\n......", "cut short: 160×128 pels take 61440 bytes, and 6 are there"),
        (
            "jpeg",
            b"\xFF\xD8\xFF\xE0",
            "this is a JPEG picture; it must be PNG, PGM (P5), PPM (P6) or Y4M: ffmpeg -i jpeg -pix_fmt gray picture.png",
        ),
        ("head", b"P5 160", "cut short: it ends inside its head"),
        ("comment", b"P5 # for ever", "cut short: it ends inside its head"),
        ("short", b"P5 160 128 255\nabc", "cut short: 160×128 pels take 20480 bytes, and 3 are there"),
        ("none", b"P5 0 0 255\n", "the head says a width of 0: there is nothing to measure"),
        ("flat", b"P5 160 0 255\n", "the head says a height of 0: there is nothing to measure"),
        ("absurd", b"P5 4000000000 4000000000 255\n", "the head says a width of 4000000000: no picture is so large"),
        (
            "huge",
            b"P5 99999999999999999999999 1 255\n",
            "the head says a width of 99999999999999999999999: no picture is so large",
        ),
        ("minus", b"P5 -160 128 255\n", "the head has '-160' where its width should be"),
        ("most", b"P5 160 128 65536\n", "the head says a largest value of 65536; 1 to 65,535 can be read"),
        ("clip", b"YUV4MPEG2 W160 H128 Cmono\nFRAME\nabc", "cut short: 160×128 pels take 20480 bytes, and 3 are there"),
    ];
    for (name, bytes, what) in files {
        folder.write(name, bytes);
        bad_picture(&folder, name, &format!("{name}: {what}"));
    }
    folder.write("png", b"\x89PNG\r\n\x1A\n");
    let said = folder.belt(&["measure", "png", "still.pgm", "--blocks", "o"]);
    assert_eq!((said.status, said.out.as_str(), said.error.lines().count()), (2, "", 1));
    assert!(said.error.starts_with("belt: png: cut short or damaged: "), "{said:?}");
    bad_picture(&folder, "no such file", "no such file: No such file or directory (os error 2)");
    bad_picture(&folder, "still.pgm#1", "still.pgm#1: this file is one picture: only frames of Y4M have numbers");
    bad_picture(&folder, "clip.y4m#3", "clip.y4m#3: it has 3 frames, so there is no frame 3 (the first is 0)");
    bad(
        &folder,
        &["measure", "still.pgm/x", "pan.pgm", "--type", "affine"],
        "still.pgm/x: Not a directory (os error 20)",
    );
}

#[test]
fn two_pictures_that_do_not_go_together() {
    let folder = tool::pictures("bad-pairs");
    let words = |a: &'static str, b: &'static str| ["measure", a, b, "--type", "translation"];
    bad(
        &folder,
        &words("still.pgm", "deep-still.pgm"),
        "deep-still.pgm: it has 96×64 pels, and still.pgm 160×128; both must have the same",
    );
    folder.write("scale.pgm", [b"P5 160 128 100\n".to_vec(), vec![0; 160 * 128]].concat());
    bad(
        &folder,
        &words("still.pgm", "scale.pgm"),
        "scale.pgm: its pels go up to 100, and those of still.pgm to 255; both must have the same",
    );
    folder.write("over.pgm", [b"P5 160 128 255\n".to_vec(), vec![0; 160 * 128]].concat());
    let mut over = b"P5 96 64 4095\n".to_vec();
    over.extend([0x00, 0x10].repeat(96 * 64 - 1));
    over.extend([0x10, 0x00]);
    folder.write("over.pgm", over);
    bad(
        &folder,
        &words("over.pgm", "deep-still.pgm"),
        "over.pgm: row 63, column 95: the pel is 4096, over the 4095 that the head allows; are its bytes in the other order?",
    );
    let crop = ["measure", "still.pgm", "pan.pgm", "--type", "affine", "--crop", "100,0,64,64"];
    bad(&folder, &crop, "still.pgm: --crop 100,0,64,64 isn't a part of it: it has 160×128 pels");
    bad(
        &folder,
        &["measure", "still.pgm"],
        "measure: it takes two pictures or more, not 1; 'belt track' measures a clip, clip.y4m#0 is a frame",
    );
    bad(&folder, &["measure", "-", "-"], "standard input: it can be read once alone");
    std::fs::create_dir(folder.path("nothing")).unwrap();
    bad(&folder, &["measure", "nothing", "--type", "affine"], "nothing: a folder without a picture (.png, .pgm, .ppm)");
}

#[test]
fn words_that_are_not_known() {
    let folder = tool::pictures("bad-words");
    let measure = |words: &[&'static str]| [&["measure", "still.pgm", "pan.pgm", "--type", "affine"], words].concat();
    let commands = [
        vec![],
        vec!["weigh"],
        vec!["measure", "--colour"],
        vec!["measure"],
        vec!["list"],
        vec!["convert", "a", "b", "--to", "3"],
        vec!["price", "--slot", "1"],
        vec!["price", "three", "--type", "affine"],
        measure(&["--crop", "1,2,3"]),
        measure(&["--crop", "-1,2,3,4"]),
        measure(&["--frame", "65536"]),
        measure(&["--within", "nan"]),
        measure(&["--within", "-1"]),
        measure(&["--precision", "full"]),
        measure(&["--json=1"]),
        measure(&["--json", "--json"]),
        measure(&["--halve", "7"]),
        measure(&["--type", "shear"]),
        measure(&["--set", "film"]),
    ];
    let before = folder.names();
    for words in commands {
        let said = folder.belt(&words);
        assert_eq!((said.status, said.out.as_str(), said.error.lines().count()), (2, "", 1), "{words:?}: {said:?}");
        assert!(said.error.starts_with("belt: the command line: "), "{words:?}: {said:?}");
    }
    assert_eq!(folder.names(), before);
    bad(&folder, &measure(&["--picture", "x.jpg"]), "x.jpg: a picture's name ends in .svg or .png");
    bad(&folder, &measure(&["--prior", "no"]), "no: No such file or directory (os error 2)");
    bad(&folder, &measure(&["--prior", "turn.pgm"]), "turn.pgm: it is no text");
    folder.write("three", "0 1 2");
    bad(
        &folder,
        &measure(&["--prior", "three"]),
        "three: it has 3 numbers; seven models have 42, six for each of references 1 to 7",
    );
    folder.write("glass", "metal\nglass");
    bad(&folder, &measure(&["--classes", "glass"]), "glass: line 2: 'glass' is no class");
    bad(&folder, &measure(&["--classes", "three", "--set", "film,tin"]), "--set: 'tin' is no class");
    bad(&folder, &["read-header", "three", "--hex"], "three: it has 3 hexadecimal digits; a byte has two");
    bad(&folder, &["practice", "a", "b", "--size", "0x9"], "--size: a picture without pels can't be measured");
}

/// What the library refuses: status 1, its number and its plain words in docs/RULES.md.
#[test]
fn refusals() {
    let folder = tool::pictures("refusals");
    let before = folder.names();
    let refused = |words: &[&str], line: &str| {
        let said = folder.belt(words);
        let wanted = format!("belt: {line}\n");
        assert_eq!((said.status, said.out.as_str(), said.error.as_str()), (1, "", wanted.as_str()), "{words:?}");
    };
    let measure = |words: &[&'static str]| {
        let stores = ["--type", "translation", "--blocks", "o", "--picture", "o.svg"];
        [&["measure", "still.pgm", "pan.pgm"], &stores[..], words].concat()
    };
    let pair = "still.pgm to pan.pgm: refused";
    let rules = include_str!("../../../docs/RULES.md");
    let row = |number: u32| {
        let condition = belt::Refusal::TABLE.into_iter().find(|row| row.0 == number).unwrap().1;
        let line = rules.lines().find(|line| line.starts_with(&format!("| {number} | {condition} |"))).unwrap();
        line.split(" | ").nth(3).unwrap().trim_end_matches(" |")
    };
    refused(&measure(&["--frame", "0"]), &format!("{pair}, 17: {}", row(17)));
    refused(&measure(&["--reference", "8"]), &format!("{pair}, 5: {}", row(5)));
    refused(&measure(&["--start", "8"]), &format!("{pair}, 14: {}", row(14)));
    folder.write("few", "0 1 2 3 4");
    refused(&measure(&["--classes", "few"]), &format!("{pair}, 2: {}: classes has 5 elements, 80 are wanted", row(2)));
    folder.write("five", "5 ".repeat(80));
    refused(&measure(&["--classes", "five"]), &format!("{pair}, 4: {}", row(4)));
    folder.write("sheets", "film ".repeat(80));
    refused(&measure(&["--classes", "sheets", "--set", "film,5"]), &format!("{pair}, 4: {}", row(4)));
    refused(&measure(&["--classes", "sheets", "--set", "metal", "--trim"]), &format!("{pair}, 15: {}", row(15)));
    folder.write("prior", "0 0 65536 8193 0 65536 ".repeat(7));
    refused(&measure(&["--prior", "prior"]), &format!("{pair}, 8: {}", row(8)));
    let small = ["measure", "still.pgm", "pan.pgm", "--type", "rotzoom", "--crop", "0,0,15,15"];
    refused(&small, &format!("{pair}, 6: {}", row(6)));
    for (gm_type, part) in [("translation", "0,0,48,16"), ("rotzoom", "0,0,80,16"), ("affine", "0,0,112,16")] {
        let few = ["measure", "still.pgm", "pan.pgm", "--trim", "--type", gm_type, "--crop", part];
        refused(&few, &format!("{pair}, 15: {}", row(15)));
    }
    for words in [&["--frame", "0"][..], &["--frame", "0", "--trim"]] {
        refused(&[&["measure", "still.pgm", "pan.pgm"], words].concat(), &format!("{pair}, 17: {}", row(17)));
    }
    folder.write("header", [0xFF; 2]);
    refused(&["read-header", "header", "--at", "9"], &format!("header, bit 9: refused, 9: {}", row(9)));
    let far = ["practice", "a", "b", "--shift", "25,0"];
    refused(&far, &format!("practice, 640×480 pels: refused, 18: {}", row(18)));
    let large = ["practice", "a", "b", "--size", "1025x4"];
    refused(&large, &format!("practice, 1025×4 pels: refused, 1: {}", row(1)));
    refused(&["price", "--type", "rotzoom", "--slot", "5"], &format!("slot 5: refused, 5: {}", row(5)));
    folder.write("off", "affine 0 0 65537 0 0 65536 ".repeat(7));
    refused(&["price", "off"], &format!("off: refused, 7: {}", row(7)));
    let mut after = folder.names();
    after.retain(|name| !["few", "five", "sheets", "prior", "header", "off"].contains(&name.as_str()));
    assert_eq!(after, before);
}

/// Files that can't be written: a device that is full, a folder, a disk that ends in the middle.
#[test]
fn files_that_cannot_be_written() {
    let folder = tool::pictures("bad-files");
    let measure = |words: &[&'static str]| [&["measure", "still.pgm", "pan.pgm", "--type", "affine"], words].concat();
    let fails = |words: &[&str], line: &str| {
        let before = folder.names();
        let Said { status, error, .. } = folder.belt(words);
        assert_eq!((status, error.as_str()), (2, format!("belt: {line}\n").as_str()), "{words:?}");
        assert_eq!(folder.names(), before, "{words:?}");
    };
    fails(&measure(&["--blocks", "/dev/full"]), "/dev/full: No space left on device (os error 28)");
    fails(&measure(&["--header", "no/where"]), "no/where: No such file or directory (os error 2)");
    std::fs::create_dir(folder.path("folder.png")).unwrap();
    fails(&measure(&["--blocks", "o", "--picture", "folder.png"]), "folder.png: is a directory");
    fails(
        &measure(&["--blocks", "no/b", "--picture", "o.svg", "--header", "o.h"]),
        "no/b: No such file or directory (os error 2)",
    );

    // no file may grow beyond 1 KiB, as on a disk that is full
    folder.write("o.png", "what was there");
    let before = folder.names();
    let line = "trap '' XFSZ; ulimit -f 1; exec \"$0\" measure still.pgm pan.pgm --type affine --blocks o.blocks --picture o.png";
    let mut limited = Command::new("bash");
    limited.args(["-c", line, env!("CARGO_BIN_EXE_belt")]).current_dir(&folder.0);
    let said = folder.said(limited.output().unwrap());
    assert_eq!(
        (said.status, said.out.as_str(), said.error.as_str()),
        (2, "", "belt: o.png: File too large (os error 27)\n")
    );
    assert_eq!(folder.names(), before);
    assert_eq!(std::fs::read(folder.path("o.png")).unwrap(), b"what was there");
}
