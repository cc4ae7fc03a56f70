//! Footage that is drawn here, each with its true motion and the status that it must have.

mod tool;

use serde_json::Value;
use tool::drawn::{HEIGHT, blurred, brighter, load, noisy, over, pgm};
use tool::{Folder, json, noise, number, smooth, warnings};

fn pair(folder: &Folder, words: &[&str]) -> Value {
    let said = folder.belt(&[&["measure", "a.pgm", "b.pgm", "--json"], words].concat());
    assert_eq!((said.status, said.error.as_str()), (0, ""));
    json(&said.out)
}

fn words(folder: &Folder) -> String {
    folder.belt(&["measure", "a.pgm", "b.pgm"]).out
}

/// A creep is measured in every pair, so that whoever adds up gets the way.
#[test]
fn a_creep_is_no_standing_still() {
    let folder = Folder::new("creep");
    for step in [0.1, 0.15, 0.19, 0.25, 0.3] {
        let mut sum = 0.0;
        for number_of in 0..4 {
            folder.write("a.pgm", smooth(step * f64::from(number_of), 0.0));
            folder.write("b.pgm", smooth(step * f64::from(number_of + 1), 0.0));
            let found = pair(&folder, &[]);
            assert_eq!(found["status"], "measured", "{step}: {found}");
            assert!((number(&found, "right_pels") - step).abs() < 0.04, "{step}: {found}");
            sum += number(&found, "right_pels");
        }
        assert!((sum - 4.0 * step).abs() < 0.1, "{step}: {sum}");
    }
    folder.write("b.pgm", smooth(0.9, 0.0));
    folder.write("a.pgm", smooth(0.9, 0.0));
    assert_eq!(pair(&folder, &[])["status"], "still");
}

#[test]
fn a_flat_belt_and_a_small_one_have_their_status() {
    let folder = Folder::new("flat");
    folder.write("a.pgm", [b"P5 160 128 255\n".to_vec(), vec![77; 160 * 128]].concat());
    folder.write("b.pgm", noise(|_, _| [0, 0]));
    for words in [&[][..], &["--type", "affine", "--trim"]] {
        let found = pair(&folder, words);
        assert_eq!((&found["status"], &found["measured"]["zoom"]), (&Value::from("flat"), &Value::Null));
        assert_eq!((told(&found)[1], warnings(&found).len()), ("null", 0), "{found}");
    }
    says_one_thing(&pair(&folder, &[]), &words(&folder));
    assert!(words(&folder).contains("\nNothing was measured: a picture is flat, every pel is the same.\n"));
    let found = pair(&folder, &["--crop", "0,0,160,15"]);
    assert_eq!((&found["status"], &found["measured"]["right_pels"]), (&Value::from("no-blocks"), &Value::Null));
}

/// A rail along the edge: it is told, with what to do; the crop and the mask both do it.
#[test]
fn a_rail_is_told_and_can_be_left_out() {
    let folder = Folder::new("rail");
    folder.write("a.pgm", noise(|_, y| if y < 32 { [20, 20] } else { [26, 24] }));
    folder.write("b.pgm", noise(|_, _| [20, 20]));
    let found = pair(&folder, &[]);
    assert!(warnings(&found).contains(&"part-still"), "{found}");
    let common = |name: &str| found["commonest"][name].as_f64().unwrap();
    assert!((common("right_pels") - 6.0).abs() < 0.1 && (common("down_pels") - 4.0).abs() < 0.1, "{found}");
    assert!(common("share") > 0.6 && found["share_that_stood_still"].as_f64().unwrap() > 0.1, "{found}");
    assert!(words(&folder).contains("cut it off with --crop, or leave it out with --mask"), "{}", words(&folder));
    says_one_thing(&found, &words(&folder));
    for way in [["--crop", "0,32,160,96"], ["--mask", "mask.pgm"]] {
        let pel = |i: usize| if i / 160 == 17 { 1 } else { u8::from(i / 160 < 3) };
        folder.write("mask.pgm", [b"P5 160 128 255\n".to_vec(), (0..160 * 128).map(pel).collect()].concat());
        let found = pair(&folder, &way);
        assert_eq!((&found["status"], warnings(&found).len()), (&Value::from("measured"), 0), "{found}");
        assert!(is_near(&found, [6.0, 4.0], 0.05), "{found}");
        assert!((40..=60).contains(&found["usable"].as_u64().unwrap()), "{found}");
    }
    folder.write("mask.pgm", [b"P5 160 128 255\n".to_vec(), vec![9; 160 * 128]].concat());
    let found = pair(&folder, &["--mask", "mask.pgm"]);
    assert_eq!((&found["status"], &found["usable"]), (&Value::from("no-blocks"), &Value::from(0)));
    assert!(warnings(&found).is_empty(), "{found}");
    folder.write("mask.pgm", b"P5 1 1 255\nx");
    let said = folder.belt(&["measure", "a.pgm", "b.pgm", "--mask", "mask.pgm"]);
    assert_eq!(said.error, "belt: mask.pgm: the mask has 1×1 pels, and a.pgm 160×128\n");
}

/// Most stands still and a part moves: nothing that is said denies it.
#[test]
fn a_part_that_moves_is_told() {
    let folder = Folder::new("part");
    let inside = |x: usize, y: usize| (48..96).contains(&x) && (32..80).contains(&y);
    folder.write("a.pgm", noise(|x, y| if inside(x, y) { [26, 20] } else { [20, 20] }));
    folder.write("b.pgm", noise(|_, _| [20, 20]));
    let found = pair(&folder, &[]);
    assert_eq!((&found["status"], warnings(&found)), (&Value::from("still"), vec!["part-moves"]), "{found}");
    let text = words(&folder);
    assert!(text.contains(" stood still, and a part moved on its own.\n"), "{text}");
    assert!(text.contains("a part moved on its own: the commonest motion of the rest is 6"), "{text}");
    says_one_thing(&found, &text);
}

/// What no motion explains has no numbers, in words and in JSON.
#[test]
fn what_is_not_explained_has_no_numbers() {
    let folder = Folder::new("unexplained");
    let states: [(Vec<u8>, Vec<u8>); 3] = [
        // two halves that part
        (noise(|x, _| if x < 80 { [48, 40] } else { [32, 40] }), noise(|_, _| [40, 40])),
        // beyond the range
        (noise(|_, _| [100, 0]), noise(|_, _| [0, 0])),
        // another scene
        (noise(|_, _| [5000, 9000]), noise(|_, _| [0, 0])),
    ];
    for (a, b) in states {
        folder.write("a.pgm", a);
        folder.write("b.pgm", b);
        let found = pair(&folder, &[]);
        assert_eq!(found["status"], "unexplained", "{found}");
        assert!(
            ["right_pels", "down_pels", "zoom", "angle_degrees"].iter().all(|name| found["measured"][name].is_null())
        );
        assert!(!warnings(&found).is_empty());
        let text = words(&folder);
        assert!(text.contains("\nIt isn't known how it moved") && !text.contains("\n    shift"), "{text}");
        says_one_thing(&found, &text);
    }
}

/// Writes a pair and measures it.
fn drawn(folder: &Folder, first: Vec<f64>, second: Vec<f64>, words: &[&str]) -> Value {
    folder.write("a.pgm", pgm(first));
    folder.write("b.pgm", pgm(second));
    pair(folder, words)
}

fn is_near(found: &Value, [right, down]: [f64; 2], by: f64) -> bool {
    (number(found, "right_pels") - right).hypot(number(found, "down_pels") - down) <= by
}

/// Status and how.
fn told(found: &Value) -> [&str; 2] {
    ["status", "how"].map(|name| found[name].as_str().unwrap_or("null"))
}

/// Each kind of footage with its true motion, and what is said of it.
#[test]
fn footage_is_measured() {
    let folder = Folder::new("footage");
    let at = |motion| load(1, motion);
    let still = [0.0, 0.0];
    let is_rail = |_: usize, y: usize| !(40..HEIGHT - 40).contains(&y);
    let is_piece = |x: usize, y: usize| (64..208).contains(&x) && (64..176).contains(&y);
    let rails = |motion| over(at(motion), &load(2, still), is_rail);
    let piece = |motion, own| over(at(motion), &load(3, own), is_piece);
    let far = [45.0, -12.5];
    type Case<'a> = (&'a str, Vec<f64>, Vec<f64>, [f64; 2], [&'a str; 2], &'a [&'a str]);
    let cases: [Case; 12] = [
        ("pan", at(still), at([7.5, -2.25]), [7.5, -2.25], ["measured", "elected"], &[]),
        ("creep", at(still), at([0.19, 0.0]), [0.19, 0.0], ["measured", "robust"], &[]),
        ("slow creep", at(still), at([0.0, -0.1]), [0.0, -0.1], ["measured", "robust"], &[]),
        ("still", at(still), at(still), still, ["still", "robust"], &[]),
        ("rails", rails(still), rails([-6.5, 0.75]), [-6.5, 0.75], ["measured", "robust"], &["part-still"]),
        ("piece", piece(still, still), piece([4.5, 1.25], [-5.0, 3.0]), [4.5, 1.25], ["measured", "robust"], &[]),
        ("piece alone", piece(still, still), piece(still, [-5.0, 3.0]), still, ["still", "robust"], &["part-moves"]),
        ("darker", at(still), brighter(at([-3.5, 6.0]), 0.6, 10.0), [-3.5, 6.0], ["measured", "elected"], &[]),
        ("blurred", blurred(at(still), 4), blurred(at([5.25, 1.5]), 4), [5.25, 1.5], ["measured", "elected"], &[]),
        ("noisy", noisy(at(still), 1, 6.0), noisy(at([2.5, 2.5]), 2, 6.0), [2.5, 2.5], ["measured", "elected"], &[]),
        (
            "noise",
            noisy(at(still), 1, 60.0),
            noisy(at([4.0, -4.0]), 2, 60.0),
            [4.0, -4.0],
            ["measured", "half-size"],
            &[],
        ),
        ("far", at(still), at(far), far, ["measured", "shifted"], &[]),
    ];
    for (name, first, second, truth, wanted, warned) in cases {
        let found = drawn(&folder, first, second, &[]);
        assert_eq!((told(&found), warnings(&found)), (wanted, warned.to_vec()), "{name}: {found}");
        assert!(is_near(&found, truth, if name == "noise" { 0.2 } else { 0.05 }), "{name}: {found}");
        says_one_thing(&found, &words(&folder));
    }
    // without coarser pictures what went far isn't found
    let found = drawn(&folder, at(still), at(far), &["--fast"]);
    assert_eq!((told(&found), &found["predicted"]), (["unexplained", "null"], &Value::Null), "{found}");
    assert_eq!(told(&drawn(&folder, at(still), at([7.5, -2.25]), &["--fast"])), ["measured", "elected"]);
    // light doesn't stop the named type's counts, but its blocks are those that are stored
    let found = drawn(&folder, at(still), at([7.5, -2.25]), &["--type", "translation"]);
    assert_eq!(
        (told(&found), &found["usable"], &found["predicted"]),
        (["measured", "plain"], &300.into(), &Value::Null)
    );
}

/// The words tell what the JSON does, and no more.
fn says_one_thing(found: &Value, text: &str) {
    let status = found["status"].as_str().unwrap();
    let known = ["measured", "still"].contains(&status);
    assert_eq!(text.contains("\nIt moved ") || text.contains("\nIt became "), status == "measured", "{text}");
    assert_eq!(
        text.contains("\nIt stood still.\n") || text.contains(" % stood still, and"),
        status == "still",
        "{text}"
    );
    assert_eq!(text.contains("\n  measured   nothing\n"), !known, "{text}");
    assert_eq!(text.contains("\n    shift "), known, "{text}");
    assert_eq!(
        text.contains("\n    zoom "),
        status == "measured" && found["measured"]["type"] != "translation",
        "{text}"
    );
    for name in ["right_pels", "down_pels", "zoom", "angle_degrees"] {
        assert_eq!(found["measured"][name].is_null(), !known, "{name}: {found}");
    }
    assert_eq!((found["how"].is_null(), found["predicted"].is_null()), (!known, !known), "{found}");
    let [agree, usable, blocks] = ["agree", "usable", "blocks"].map(|name| found[name].as_u64().unwrap());
    assert!(agree <= usable && usable <= blocks, "{found}");
    let counts = format!("\n  agreement  {agree} of {usable} block");
    assert_eq!(text.contains(&counts), known, "{text}");
    let listed = found["warnings"].as_array().unwrap();
    assert_eq!(text.matches("\nwarning: ").count(), listed.len(), "{text}");
    for warning in listed {
        let [name, said] = ["name", "text"].map(|part| warning[part].as_str().unwrap());
        assert!(said.len() > 40 && text.contains(&format!("\nwarning: {name}: {said}\n")), "{text}");
    }
}

/// Halved, the motion is the original's; the range doubles.
#[test]
fn halved_pictures_tell_the_originals_motion() {
    let folder = Folder::new("halved");
    let wide = |by: usize| {
        let pel = |i: usize| {
            let (x, y) = (((i % 1200 + by) / 4) as u64, (i / 1200 / 4) as u64);
            let h = x.wrapping_mul(0x9E37_79B9_7F4A_7C15) ^ y.wrapping_mul(0xC2B2_AE3D_27D4_EB4F);
            ((h ^ h >> 29).wrapping_mul(0xBF58_476D_1CE4_E5B9) >> 40) as u8
        };
        [b"P5 1200 128 255\n".to_vec(), (0..1200 * 128).map(pel).collect()].concat()
    };
    folder.write("a.pgm", wide(48));
    folder.write("b.pgm", wide(0));
    let said = folder.belt(&["measure", "a.pgm", "b.pgm"]);
    assert!(said.status == 1 && said.error.contains("--crop X,Y,W,H measures a part, --halve all"), "{said:?}");
    for (halvings, halved) in [("1", 1), ("2", 2)] {
        let found = pair(&folder, &["--halve", halvings]);
        assert_eq!((&found["status"], &found["halved"]), (&Value::from("measured"), &Value::from(halved)));
        assert!((number(&found, "right_pels") - 48.0).abs() < 0.1, "{found}");
        let stored = found["stored"]["right_pels"].as_f64().unwrap();
        assert!((stored * f64::from(1 << halved) - 48.0).abs() < 0.6, "{found}");
    }
}

/// The demo leaves its four files, and finds what it drew.
#[test]
fn the_demo_finds_what_it_drew() {
    let folder = Folder::new("demo");
    let said = folder.belt(&["demo", "here"]);
    assert_eq!((said.status, said.error.as_str()), (0, ""), "{said:?}");
    let mut names: Vec<_> =
        std::fs::read_dir(folder.path("here")).unwrap().map(|file| file.unwrap().file_name()).collect();
    names.sort();
    assert_eq!(names, ["clip.y4m", "measured.png", "motion.csv", "motion.svg"]);
    let mut table = csv::Reader::from_path(folder.path("here/motion.csv")).unwrap();
    let names = table.headers().unwrap().clone();
    let mut pairs = 0;
    for row in table.records().map(Result::unwrap) {
        let cell = |name: &str| &row[names.iter().position(|own| own == name).unwrap()];
        let pels = |name: &str| cell(name).parse::<f64>().unwrap_or_else(|_| panic!("{row:?}"));
        for (found, drawn) in [("right_pels", "drawn_right"), ("down_pels", "drawn_down")] {
            assert!((pels(found) - pels(drawn)).abs() < 0.1, "{row:?}");
        }
        assert_eq!(cell("status") == "still", pels("drawn_right") == 0.0, "{row:?}");
        pairs += 1;
    }
    assert_eq!(pairs, 24);
    let said = folder.belt(&["measure", "here/clip.y4m#0", "here/clip.y4m#1"]);
    assert!(said.out.contains("\nIt moved 3") && said.out.contains(", robust: "), "{said:?}");
    folder.write("file", "x");
    let said = folder.belt(&["demo", "file"]);
    assert_eq!((said.status, said.out.as_str()), (2, ""), "{said:?}");
}
