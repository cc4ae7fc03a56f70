//! Clips: each pair with its true motion and the status that it must have, whatever way the frames come in, and what goes
//! wrong on the way.

mod tool;

use serde_json::Value;
use std::fs;
use std::io::{Read, Write};
use std::process::{Command, Stdio};
use std::thread;
use std::time::Duration;
use tool::drawn::{HEIGHT, WIDTH, brighter, load, noisy, over, pgm, y4m};
use tool::{Folder, Said, json, kept, pictures};

/// A pair as it was drawn: its motion, where one is to be found, and status and how.
type Drawn = (Option<[f64; 2]>, &'static str, &'static str);

/// A clip with a pair of each kind.
fn footage() -> (Vec<Vec<f64>>, Vec<Drawn>) {
    let (mut frames, mut pairs) = (vec![load(1, [0.0, 0.0])], Vec::new());
    let mut at = [0.0, 0.0];
    let mut step = |motion: [f64; 2], status, how, frame: &dyn Fn([f64; 2]) -> Vec<f64>| {
        at = [at[0] + motion[0], at[1] + motion[1]];
        frames.push(frame(at));
        pairs.push((["measured", "still"].contains(&status).then_some(motion), status, how));
    };
    let plain = |at| load(1, at);
    step([7.5, -2.25], "measured", "elected", &plain);
    step([0.19, 0.0], "measured", "robust", &plain);
    step([0.0, 0.0], "still", "robust", &plain);
    step([-3.5, 6.0], "measured", "elected", &|at| brighter(load(1, at), 0.6, 10.0));
    step([-2.0, -2.0], "measured", "elected", &|at| noisy(load(1, at), 7, 6.0));
    // a blank frame, and back
    step([0.0, 0.0], "flat", "", &|_| vec![90.0; WIDTH * HEIGHT]);
    step([0.0, 0.0], "flat", "", &plain);
    step([45.0, -12.5], "measured", "shifted", &plain);
    // another scene
    step([0.0, 0.0], "unexplained", "", &|at| load(5, at));
    step([-4.25, 0.5], "measured", "elected", &|at| load(5, at));
    (frames, pairs)
}

/// The lines of a run that ends well.
fn lines(said: &Said) -> Vec<Value> {
    assert_eq!((said.status, said.error.as_str()), (0, ""), "{said:?}");
    said.out.lines().map(json).collect()
}

fn statuses(lines: &[Value]) -> Vec<&str> {
    lines.iter().map(|line| line["status"].as_str().unwrap()).collect()
}

/// The rows of a table, each as an object of texts.
fn table(folder: &Folder, name: &str) -> Vec<Value> {
    let mut table = csv::Reader::from_path(folder.path(name)).unwrap();
    let names = table.headers().unwrap().clone();
    let row = |row: csv::StringRecord| names.iter().zip(&row).map(|(name, cell)| (name.into(), cell.into())).collect();
    table.records().map(|record| Value::Object(row(record.unwrap()))).collect()
}

#[test]
fn each_pair_has_its_motion_and_its_status() {
    let folder = Folder::new("clip");
    let (frames, pairs) = footage();
    folder.write("clip.y4m", y4m(&frames));
    let found = lines(&folder.belt(&["track", "clip.y4m", "--json", "--csv", "t.csv", "--mm-per-pel", "0.4"]));
    let rows = table(&folder, "t.csv");
    assert_eq!((found.len(), rows.len()), (pairs.len(), pairs.len()));
    let head = "pair,first,second,time_s,status,how,type,right_pels,down_pels,zoom,angle_degrees,stored_right,stored_down,agree,\
                usable,blocks,score,warnings,speed_mm_s,direction_degrees\n";
    assert!(fs::read_to_string(folder.path("t.csv")).unwrap().starts_with(head));
    for (number, ((line, row), (motion, status, how))) in found.iter().zip(&rows).zip(&pairs).enumerate() {
        held(line);
        assert_eq!((&line["status"], line["how"].as_str().unwrap_or("")), (&Value::from(*status), *how), "{line}");
        assert_eq!((&line["pair"], &line["time_s"]), (&number.into(), &((number + 1) as f64 / 25.0).into()), "{line}");
        let names =
            [("first", number), ("second", number + 1)].map(|(name, frame)| (name, format!("clip.y4m#{frame}")));
        names.into_iter().for_each(|(name, frame)| assert_eq!(line[name], frame));
        if let Some([right, down]) = motion {
            let [own_right, own_down] = ["right_pels", "down_pels"].map(|name| line[name].as_f64().unwrap());
            assert!((own_right - right).hypot(own_down - down) < 0.06, "{line}");
            let speed = line["speed_mm_s"].as_f64().unwrap();
            let moved = *status == "measured";
            assert!((speed - own_right.hypot(own_down) * 10.0 * f64::from(u8::from(moved))).abs() < 1e-3, "{line}");
            assert_eq!(line["direction_degrees"].is_null(), !moved, "{line}");
        }
        // the table says the same
        for (name, cell) in row.as_object().unwrap() {
            let cell = cell.as_str().unwrap();
            let same = match &line[name] {
                Value::Null => cell.is_empty(),
                Value::Number(number) => cell.parse() == Ok(number.as_f64().unwrap()),
                Value::String(text) => cell == text,
                Value::Array(warnings) => {
                    let names: Vec<&str> = warnings.iter().map(|warning| warning["name"].as_str().unwrap()).collect();
                    cell == names.join(" ")
                }
                _ => false,
            };
            assert!(same, "{name}: {cell}, {line}");
        }
    }
    let direction = |pair: usize| found[pair]["direction_degrees"].as_f64().unwrap();
    assert!((direction(0) - (-2.25f64).atan2(7.5).to_degrees()).abs() < 1.0 && direction(3) > 90.0);
    // words and summary
    let said = folder.belt(&["track", "clip.y4m", "--mm-per-pel", "0.4", "--plot", "p.svg"]);
    assert_eq!((said.status, said.error.as_str()), (0, ""));
    let told: Vec<&str> = said.out.lines().collect();
    assert!(told[0].starts_with("clip.y4m#0 to clip.y4m#1: It moved 7.") && told[0].contains(" mm/s; "), "{said:?}");
    assert!(told[2].contains(": It stood still; 0.0 mm/s; "), "{said:?}");
    assert!(told[8].contains(": It isn't known how it moved"), "{said:?}");
    assert_eq!(told[11], "10 pairs: 6 measured, 1 still, 1 unexplained, 2 flat; 1 warned of, unexplained or bad");
    assert!(told[12].starts_with("  speed  ") && told[12].ends_with(" from 5 to 95 %"), "{said:?}");
    assert!(told[13].starts_with("  path   ") && told[13].ends_with(", but for what wasn't measured"), "{said:?}");
    assert!(told[14].starts_with("  worst  clip.y4m#8 to clip.y4m#9: "), "{said:?}");
    let svg = fs::read_to_string(folder.path("p.svg")).unwrap();
    for text in ["speed in mm/s", "path in mm", "time in seconds", "nothing measured", "warned of"] {
        assert!(svg.contains(text), "{text}");
    }
    let quiet = folder.belt(&["track", "clip.y4m", "--mm-per-pel", "0.4", "--quiet"]);
    assert_eq!(quiet.out.lines().collect::<Vec<_>>(), told[10..], "{quiet:?}");
}

/// Parts that move otherwise are warned of, and cropped or masked away.
#[test]
fn a_rail_is_warned_of_and_left_out() {
    let folder = Folder::new("rails");
    let is_rail = |_: usize, y: usize| !(40..HEIGHT - 40).contains(&y);
    let frames: Vec<_> =
        (0..3).map(|i| over(load(1, [-6.5 * f64::from(i), 0.75]), &load(2, [0.0, 0.0]), is_rail)).collect();
    folder.write("clip.y4m", y4m(&frames));
    let track = |words: &[&str]| folder.belt(&[&["track", "clip.y4m", "--json"], words].concat());
    for line in lines(&track(&[])) {
        held(&line);
        assert_eq!(
            (&line["status"], &line["warnings"][0]["name"]),
            (&"measured".into(), &"part-still".into()),
            "{line}"
        );
    }
    let strict = track(&["--strict", "--csv", "t.csv"]);
    let text = "belt: --strict: 2 of 2 pairs are warned of, unexplained or bad\n";
    assert_eq!((strict.status, strict.error.as_str(), table(&folder, "t.csv").len()), (3, text, 2));
    folder.write("mask.pgm", pgm((0..WIDTH * HEIGHT).map(|i| f64::from(u8::from(is_rail(0, i / WIDTH)))).collect()));
    for words in [&["--crop", "0,48,320,144"][..], &["--mask", "mask.pgm"], &["--mask", "mask.pgm", "--fast"]] {
        for line in lines(&track(&[words, &["--strict"]].concat())) {
            assert!((line["right_pels"].as_f64().unwrap() + 6.5).abs() < 0.05, "{line}");
            assert_eq!(line["warnings"], Value::Array(vec![]), "{line}");
        }
    }
    for line in lines(&track(&["--crop", "0,48,320,144", "--halve"])) {
        assert!((line["right_pels"].as_f64().unwrap() + 6.5).abs() < 0.1 && line["blocks"] == 40, "{line}");
        assert!((line["stored_right"].as_f64().unwrap() + 6.5).abs() < 0.3, "{line}");
    }
    folder.write("small.pgm", b"P5 1 1 255\nx");
    let said = track(&["--mask", "small.pgm"]);
    assert_eq!(said.error, "belt: small.pgm: the mask has 1×1 pels, and clip.y4m#0 320×240\n");
    let said = track(&["--crop", "0,0,321,240"]);
    assert_eq!(said.error, "belt: clip.y4m: --crop 0,0,321,240 isn't a part of it: it has 320×240 pels\n");
}

/// Whatever way the frames come in, and by however many threads, what is found is the same.
#[test]
fn a_clip_a_pipe_a_folder_and_a_list_are_one() {
    let folder = Folder::new("ways");
    let frames: Vec<_> = (0..12).map(|i| load(1, [2.5 * f64::from(i), 0.3 * f64::from(i * i)])).collect();
    let clip = y4m(&frames);
    folder.write("clip.y4m", &clip);
    fs::create_dir(folder.path("frames")).unwrap();
    for (number, frame) in frames.iter().enumerate() {
        folder.write(&format!("frames/f{number}.pgm"), pgm(frame.clone()));
    }
    let found = folder.belt(&["track", "clip.y4m", "--json", "--threads", "1"]);
    let wanted = lines(&found);
    assert_eq!(wanted.len(), 11);
    for threads in ["2", "3", "20"] {
        assert_eq!(folder.belt(&["track", "clip.y4m", "--json", "--threads", threads]).out, found.out);
    }
    let numbers = |line: &Value| ["right_pels", "down_pels", "agree", "score"].map(|name| line[name].clone());
    let same = |said: Said, name: &str| {
        let lines = lines(&said);
        assert!(lines.iter().map(numbers).eq(wanted.iter().map(numbers)), "{name}");
        lines
    };
    let piped = same(folder.belt_fed(&["track", "-", "--json"], &clip), "a pipe");
    assert_eq!((&piped[3]["first"], &piped[3]["time_s"]), (&"-#3".into(), &0.16.into()));
    let pictures = same(folder.belt(&["track", "frames", "--json", "--fps", "50"]), "a folder");
    // f10 behind f9
    assert_eq!((&pictures[9]["second"], &pictures[9]["time_s"]), (&"frames/f10.pgm".into(), &0.2.into()));
    let names: Vec<String> = (0..12).map(|number| format!("frames/f{number}.pgm")).collect();
    let words: Vec<&str> = ["track", "--json"].into_iter().chain(names.iter().map(String::as_str)).collect();
    let listed = same(folder.belt(&words), "a list");
    assert!(listed[0]["time_s"].is_null());
    // all together
    let mixed = folder.belt(&["track", "clip.y4m#0", "frames/f1.pgm", "clip.y4m#2", "clip.y4m", "--json", "--to", "3"]);
    let mixed = lines(&mixed);
    assert!(mixed.len() == 3 && mixed[..2].iter().map(numbers).eq(wanted[..2].iter().map(numbers)), "{mixed:?}");
    assert_eq!(mixed[2]["second"], "clip.y4m#0");
    mixed.iter().chain(&listed).chain(&piped).for_each(held);
}

#[test]
fn the_frames_that_are_asked_for_are_taken() {
    let folder = Folder::new("chosen");
    let frames: Vec<_> = (0..10).map(|i| load(1, [f64::from(i), 0.0])).collect();
    folder.write("clip.y4m", y4m(&frames));
    let taken = |words: &[&str]| -> Vec<(String, String)> {
        let found = lines(&folder.belt(&[&["track", "clip.y4m", "--json", "--fast"], words].concat()));
        let name = |line: &Value, which: &str| line[which].as_str().unwrap().replace("clip.y4m#", "");
        for line in &found {
            let apart = name(line, "second").parse::<f64>().unwrap() - name(line, "first").parse::<f64>().unwrap();
            assert!((line["right_pels"].as_f64().unwrap() - apart).abs() < 0.1, "{line}");
        }
        found.iter().map(|line| (name(line, "first"), name(line, "second"))).collect()
    };
    let pairs = |numbers: &[usize]| -> Vec<_> {
        numbers.windows(2).map(|two| (two[0].to_string(), two[1].to_string())).collect()
    };
    assert_eq!(taken(&["--from", "3", "--to", "6"]), pairs(&[3, 4, 5, 6]));
    assert_eq!(taken(&["--every", "3"]), pairs(&[0, 3, 6, 9]));
    assert_eq!(taken(&["--every", "4", "--from", "1"]), pairs(&[1, 5, 9]));
    assert_eq!(taken(&["--from", "8", "--to", "99"]), pairs(&[8, 9]));
    for (words, text) in [
        (["--from", "4", "--to", "4"], "--to: it must be more than --from, 4: a pair is two frames"),
        (["--from", "9", "--every", "1"], "clip.y4m: it takes two frames or more"),
        (["--from", "10", "--every", "1"], "clip.y4m: it takes two frames or more"),
    ] {
        let said = folder.belt(&[&["track", "clip.y4m", "--csv", "t"], &words[..]].concat());
        assert_eq!((said.status, said.error), (2, format!("belt: {text}\n")));
    }
    assert_eq!(folder.names(), ["clip.y4m"]);
}

/// A frame that can't be read makes its pairs bad, and the clip goes on.
#[test]
fn a_damaged_frame_does_not_end_the_clip() {
    let folder = Folder::new("damaged");
    let frames: Vec<_> = (0..8).map(|i| load(1, [4.0 * f64::from(i), 0.0])).collect();
    let (clip, size) = (y4m(&frames), 6 + WIDTH * HEIGHT);
    let head = clip.len() - 8 * size;
    let track = |clip: Vec<u8>| {
        folder.write("clip.y4m", clip);
        let found = folder.belt(&["track", "clip.y4m", "--json", "--csv", "t.csv", "--fast"]);
        let found = lines(&found);
        found.iter().for_each(held);
        let moved = |line: &&Value| line["status"] == "measured";
        assert!(found.iter().filter(moved).all(|line| (line["right_pels"].as_f64().unwrap() - 4.0).abs() < 0.1));
        let reasons = |line: &Value| line["reason"].as_str().map(String::from);
        for (line, row) in found.iter().zip(table(&folder, "t.csv")).filter(|(line, _)| line["status"] == "bad") {
            assert_eq!(row["warnings"], line["reason"], "a table says why, too");
        }
        found.iter().map(reasons).collect::<Vec<_>>()
    };
    let late = "it doesn't end where the next frame should begin: bytes of it are missing, or too many";
    let bad = |reasons: &[Option<String>]| reasons.iter().map(Option::is_some).collect::<Vec<_>>();
    // cut at its end
    let reasons = track(clip[..clip.len() - 1].to_vec());
    assert_eq!(bad(&reasons), [false, false, false, false, false, false, true]);
    let cut = "clip.y4m#7: cut short: 320×240 pels take 76800 bytes, and 76799 are there";
    assert_eq!(reasons[6].as_deref(), Some(cut));
    // bytes missing in frame 2: it reaches into frame 3, which is lost with it
    let mut holed = clip.clone();
    holed.drain(head + 2 * size + 1000..head + 2 * size + 5000);
    let reasons = track(holed);
    assert_eq!(bad(&reasons), [false, true, true, true, false, false, false]);
    assert_eq!(reasons[1], Some(format!("clip.y4m#2: {late}")));
    assert_eq!(reasons[3].as_deref(), Some("clip.y4m#3: it doesn't begin with 'FRAME'"));
    // a head damaged
    let mut headless = clip.clone();
    headless[head + 5 * size] = b'f';
    assert_eq!(bad(&track(headless)), [false, false, false, true, true, true, false]);
    // strictly
    folder.write("clip.y4m", &clip[..clip.len() - 1]);
    let said = folder.belt(&["track", "clip.y4m", "--strict", "--csv", "t.csv"]);
    assert_eq!(
        (said.status, said.error.as_str()),
        (3, "belt: --strict: 1 of 7 pairs are warned of, unexplained or bad\n")
    );
    assert!(said.out.contains(&format!("\nclip.y4m#6 to clip.y4m#7: bad: {cut}\n")), "{said:?}");
    assert!(said.out.ends_with(&format!("  worst  clip.y4m#6 to clip.y4m#7: bad: {cut}\n")), "{said:?}");
    assert_eq!(table(&folder, "t.csv").len(), 7);
}

#[test]
fn pictures_that_differ_or_are_none_are_bad_pairs() {
    let folder = pictures("differ");
    fs::create_dir(folder.path("frames")).unwrap();
    let kinds = [("still", 1), ("pan", 2), ("deep-still", 4), ("deep-pan", 5)];
    for (name, number) in kinds {
        fs::copy(kept(&format!("{name}.pgm")), folder.path(&format!("frames/{number}.pgm"))).unwrap();
    }
    folder.write("frames/3.png", b"\x89PNG\r\n\x1a\nno picture");
    folder.write("frames/6.ppm", b"");
    folder.write("frames/7.pgm", b"P5 2000 2000 255\n");
    let found = folder.belt(&["track", "frames", "--json"]);
    let found = lines(&found);
    found.iter().for_each(held);
    assert_eq!(statuses(&found), ["measured", "bad", "bad", "measured", "bad", "bad"]);
    let reason = |pair: usize| found[pair]["reason"].as_str().unwrap();
    assert!(reason(1).starts_with("frames/3.png: cut short or damaged: "), "{}", reason(1));
    assert!(reason(4).starts_with("frames/6.ppm: it is empty"), "{}", reason(4));
    let said = folder.belt(&["track", "frames/1.pgm", "frames/4.pgm", "frames/5.pgm", "--json"]);
    assert!(said.out.contains("frames/4.pgm: it has ") && statuses(&lines(&said)) == ["bad", "measured"], "{said:?}");
}

/// Where nothing can be measured, that is one line and status 2 or 1, and nothing is written.
#[test]
fn what_cannot_be_tracked_at_all_is_said() {
    let folder = pictures("none");
    folder.write("large.pgm", [b"P5 1100 40 255\n".to_vec(), vec![7; 44_000]].concat());
    folder.write("large.y4m", [b"YUV4MPEG2 W1100 H40 Cmono\nFRAME\n".to_vec(), vec![7; 44_000]].concat());
    folder.write("clip.mp4", b"\0\0\0\x20ftypisom....");
    folder.write("head.y4m", b"YUV4MPEG2 W64 H48\n");
    folder.write("x.csv", "x");
    let before = folder.names();
    let cases = [
        (&["nosuch.y4m"][..], 2, "nosuch.y4m: No such file"),
        (&["nosuch.y4m", "nosuch.pgm"], 2, "nosuch.y4m: nothing of it can be measured: nosuch.y4m: No such file"),
        (&["still.pgm"], 2, "still.pgm: it takes two frames or more"),
        (&["head.y4m"], 2, "head.y4m: it has 0 frames"),
        (
            &["large.y4m"],
            1,
            "large.y4m: refused, 1: the picture is too large, or the samples are too many; 1100×40 pels are too many",
        ),
        (&["large.pgm", "large.pgm"], 1, "large.pgm: refused, 1: the picture is too large"),
        (&["clip.mp4"], 2, "clip.mp4: this is an MP4 clip; "),
        (&["clip.y4m", "--csv", "clip.y4m"], 2, "clip.y4m: it is read too, and would be overwritten"),
        (&["clip.y4m", "--csv", "t", "--plot", "./t"], 2, "./t: two outputs are this file"),
        (&["-", "-"], 2, "standard input: it can be read once alone"),
        (&["clip.y4m", "--every", "0"], 2, "the command line: "),
        (&["clip.y4m", "--fps", "0"], 2, "the command line: "),
        (&["clip.y4m", "--threads", "0"], 2, "the command line: "),
    ];
    for (words, status, text) in cases {
        let said = folder.belt(&[&["track"], words].concat());
        assert!(said.status == status && said.error.starts_with(&format!("belt: {text}")), "{words:?}: {said:?}");
        assert_eq!((said.error.lines().count(), folder.names()), (1, before.clone()), "{words:?}");
    }
    assert!(folder.belt(&["track", "clip.mp4"]).error.ends_with("-f yuv4mpegpipe - | belt track -\n"));
}

/// Lines come while the clip still does; a reader that ends is no failure; one that is killed leaves nothing.
#[test]
fn pipes_that_are_slow_or_end_and_signals() {
    let folder = Folder::new("pipes");
    let frames: Vec<_> = (0..4).map(|i| load(1, [f64::from(i), 0.0])).collect();
    let (clip, size) = (y4m(&frames), 6 + WIDTH * HEIGHT);
    let begin = |words: &[&str]| {
        let mut command = folder.command(&[&["track", "-", "--fast"], words].concat());
        command.stdin(Stdio::piped()).stdout(Stdio::piped()).stderr(Stdio::piped()).spawn().unwrap()
    };
    // two frames and the head of the third make a line
    let mut child = begin(&[]);
    let mut pipe = child.stdin.take().unwrap();
    let until = clip.len() - 2 * size + 6;
    clip[..until].chunks(4097).for_each(|piece| pipe.write_all(piece).unwrap());
    let mut first = [0; 22];
    child.stdout.as_mut().unwrap().read_exact(&mut first).unwrap();
    assert_eq!(&first, b"-#0 to -#1: It moved 1");
    // nobody reads any more
    drop(child.stdout.take());
    let _ = pipe.write_all(&clip[until..]);
    drop(pipe);
    let said = folder.said(child.wait_with_output().unwrap());
    assert_eq!((said.status, said.error.as_str()), (0, ""));
    for signal in ["TERM", "INT", "HUP"] {
        let mut child = begin(&["--csv", "t.csv", "--plot", "p.svg"]);
        let mut pipe = child.stdin.take().unwrap();
        pipe.write_all(&clip[..until]).unwrap();
        child.stdout.as_mut().unwrap().read_exact(&mut first).unwrap();
        assert_eq!(folder.names().len(), 1, "the table waits");
        let killed = Command::new("kill").args([&format!("-{signal}"), &child.id().to_string()]).status();
        assert!(killed.unwrap().success() && !child.wait().unwrap().success());
        assert_eq!(folder.names(), [""; 0], "{signal}");
    }
    // a table on standard output stands alone there
    let said = folder.belt_fed(&["track", "-", "--csv", "-", "--fast"], &clip);
    assert!(said.status == 0 && said.out.starts_with("pair,first,") && said.out.lines().count() == 4, "{said:?}");
    assert!(said.error.starts_with("-#0 to -#1: It moved 1") && said.error.contains("\n3 pairs: 3 measured\n"));
}

/// However long the clip, it takes no more memory.
#[test]
fn a_long_clip_takes_no_more_memory() {
    let folder = Folder::new("long");
    let frame = |i: usize| {
        let pel = |at: usize| ((at % 64 + i) * 7919 % 1009 * (at / 64 + 31) % 251) as u8;
        [b"FRAME\n".to_vec(), (0..64 * 32).map(pel).collect()].concat()
    };
    let some: Vec<u8> = (0..50).flat_map(frame).collect();
    let peak = |times: usize| {
        let stores = ["--plot", "p.svg", "--csv", "t.csv", "--blocks", "b", "--headers", "h", "--key", "100"];
        let mut command = folder.command(&[&["track", "-", "--fast", "--quiet"][..], &stores].concat());
        let mut child = command.stdin(Stdio::piped()).stdout(Stdio::piped()).spawn().unwrap();
        let mut pipe = child.stdin.take().unwrap();
        pipe.write_all(b"YUV4MPEG2 W64 H32 F25:1 Cmono\n").unwrap();
        (0..times).for_each(|_| pipe.write_all(&some).unwrap());
        let status = fs::read_to_string(format!("/proc/{}/status", child.id())).unwrap();
        drop(pipe);
        let said = folder.said(child.wait_with_output().unwrap());
        assert!(said.out.starts_with(&format!("\n{} pairs: ", tool_count(50 * times - 1))), "{said:?}");
        let line = status.lines().find(|line| line.starts_with("VmHWM")).unwrap().to_string();
        line.split_whitespace().nth(1).unwrap().parse::<u64>().unwrap()
    };
    let (short, long) = (peak(4), peak(80));
    assert!(long < short + 4096 && long < 65_536, "{short} kB of 200 frames, {long} of 4,000");
}

/// A number with a comma.
fn tool_count(number: usize) -> String {
    if number < 1000 { number.to_string() } else { format!("{},{:03}", number / 1000, number % 1000) }
}

/// On a terminal there is a bar, and nothing of it elsewhere.
#[test]
fn progress_is_for_terminals() {
    let folder = Folder::new("progress");
    let frames: Vec<_> = (0..6).map(|i| load(1, [f64::from(i), 0.0])).collect();
    folder.write("clip.y4m", y4m(&frames));
    let line = |words: &str| format!("'{}' track clip.y4m --json {words}", env!("CARGO_BIN_EXE_belt"));
    let terminal = |words: &str| {
        let mut shell = Command::new("script");
        shell.args(["-qec", &line(words), "typescript"]).current_dir(&folder.0).stdin(Stdio::null());
        shell.env("TERM", "xterm").output().map(|output| String::from_utf8_lossy(&output.stdout).into_owned())
    };
    let Ok(said) = terminal("") else { return println!("script isn't here: nothing was tried") };
    assert!(said.contains(" of 5 pairs"), "{said:?}");
    assert!(!terminal("--quiet").unwrap().contains(" of 5 pairs"));
    thread::sleep(Duration::from_millis(1));
    assert_eq!(folder.belt(&["track", "clip.y4m"]).error, "");
}

/// Holds a line to the schema, by those of its words that the schema has; one that isn't known here fails.
fn held(line: &Value) {
    let text = include_str!("../track.schema.json");
    if let Err(what) = holds(&json(text), line) {
        panic!("{what}: {line}");
    }
}

fn holds(schema: &Value, value: &Value) -> Result<(), String> {
    let is = |name: &str| match name {
        "null" => value.is_null(),
        "string" => value.is_string(),
        "number" => value.is_number(),
        "integer" => value.is_u64() || value.is_i64(),
        "array" => value.is_array(),
        "object" => value.is_object(),
        name => panic!("a type {name}"),
    };
    let number = |limit: &Value, holds: fn(f64, f64) -> bool| {
        value.as_f64().is_none_or(|number| holds(number, limit.as_f64().unwrap()))
    };
    for (word, said) in schema.as_object().unwrap() {
        let right = match word.as_str() {
            "$schema" | "title" | "description" => true,
            "then" | "else" => schema.get("if").is_some(),
            "type" => match said {
                Value::Array(names) => names.iter().any(|name| is(name.as_str().unwrap())),
                name => is(name.as_str().unwrap()),
            },
            "enum" => said.as_array().unwrap().contains(value),
            "minimum" => number(said, |own, limit| own >= limit),
            "maximum" => number(said, |own, limit| own <= limit),
            "exclusiveMinimum" => number(said, |own, limit| own > limit),
            "minLength" => value.as_str().is_none_or(|text| text.len() as u64 >= said.as_u64().unwrap()),
            "maxItems" => value.as_array().is_none_or(|items| items.len() as u64 <= said.as_u64().unwrap()),
            "items" => {
                value.as_array().into_iter().flatten().try_for_each(|item| holds(said, item))?;
                true
            }
            "required" => said.as_array().unwrap().iter().all(|name| value.get(name.as_str().unwrap()).is_some()),
            "properties" => {
                for (name, own) in said.as_object().unwrap() {
                    let found = value.get(name).map_or(Ok(()), |value| holds(own, value));
                    found.map_err(|what| format!("{name}: {what}"))?;
                }
                true
            }
            "additionalProperties" => {
                assert_eq!(*said, Value::Bool(false));
                value.as_object().is_none_or(|own| own.keys().all(|name| schema["properties"].get(name).is_some()))
            }
            "allOf" => {
                said.as_array().unwrap().iter().try_for_each(|own| holds(own, value))?;
                true
            }
            "if" => {
                let then = if holds(said, value).is_ok() { "then" } else { "else" };
                schema.get(then).map_or(Ok(()), |own| holds(own, value))?;
                true
            }
            word => panic!("{word} isn't known here"),
        };
        if !right {
            return Err(format!("{word} {said}"));
        }
    }
    Ok(())
}

/// The schema refuses what it should.
#[test]
fn the_schema_says_what_is_right() {
    let schema = json(include_str!("../track.schema.json"));
    let line = json(
        r#"{"pair":0,"first":"a","second":"b","time_s":null,"status":"measured","how":"robust","type":"translation",
            "right_pels":1.5,"down_pels":0,"zoom":1,"angle_degrees":0,"stored_right":1.5,"stored_down":0,"agree":9,"usable":10,
            "blocks":20,"score":0.1,"warnings":[],"reason":null}"#,
    );
    assert_eq!(holds(&schema, &line), Ok(()));
    let wrong = [
        ("status", Value::from("moved")),
        ("status", "unexplained".into()),
        ("status", "bad".into()),
        ("right_pels", Value::Null),
        ("pair", (-1).into()),
        ("agree", 1.5.into()),
        ("warnings", serde_json::json!([{"name": "odd", "text": "x"}])),
        ("warnings", serde_json::json!([{"name": "few-agree"}])),
        ("reason", "x".into()),
        ("more", 1.into()),
    ];
    for (name, value) in wrong {
        let mut line = line.clone();
        line[name] = value;
        assert!(holds(&schema, &line).is_err(), "{line}");
    }
    let mut less = line.clone();
    less.as_object_mut().unwrap().remove("zoom");
    assert!(holds(&schema, &less).is_err());
}
