//! Pictures with a known motion: what the tool reports, and that what it stores reads back as the report.

mod tool;

use belt::{IDENTITIES, StoredModel};
use serde_json::Value;
use std::fs;
use tool::{Folder, json, kept, noise, number, pictures, warnings};

/// The motions of the kept pictures from still.pgm on (tests/draw.py): right, down, zoom, degrees.
const DRAWN: [(&str, [f64; 4]); 4] = [
    ("still", [0.0, 0.0, 1.0, 0.0]),
    ("pan", [6.0, -3.0, 1.0, 0.0]),
    ("zoom", [0.0, 0.0, 1.02, 0.0]),
    ("turn", [1.5, 0.75, 1.0, 1.5]),
];

fn near(found: f64, made: f64, by: f64, what: &str) {
    assert!((found - made).abs() <= by, "{what}: found {found}, made {made}");
}

/// The JSON of still.pgm to another.
fn measured(folder: &Folder, name: &str, words: &[&str]) -> Value {
    let said = folder.belt(&[&["measure", "still.pgm", &format!("{name}.pgm"), "--json"], words].concat());
    assert_eq!((said.status, said.error.as_str()), (0, ""), "{said:?}");
    json(&said.out)
}

#[test]
fn what_was_drawn_is_found() {
    let folder = pictures("drawn");
    for (name, [right, down, zoom, degrees]) in DRAWN {
        for gm_type in ["elected", "rotzoom", "affine"] {
            let words = ["--type", gm_type];
            let json = measured(&folder, name, if gm_type == "elected" { &[] } else { &words });
            near(number(&json, "right_pels"), right, 0.05, name);
            near(number(&json, "down_pels"), down, 0.05, name);
            near(number(&json, "zoom"), zoom, 0.001, name);
            near(number(&json, "angle_degrees"), degrees, 0.05, name);
            assert!(json["agree"].as_u64() >= Some(70), "of 80 blocks nearly all: {json}");
            assert_eq!(warnings(&json), [""; 0], "{json}");
            assert_eq!(json["status"], if name == "still" { "still" } else { "measured" });
        }
    }
    for (name, gm_type) in [("still", "identity"), ("pan", "translation"), ("zoom", "rotzoom"), ("turn", "rotzoom")] {
        let json = measured(&folder, name, &[]);
        assert_eq!(json["stored"]["type"], gm_type, "{name}");
        // an election trims, and says so or not
        assert_eq!(measured(&folder, name, &["--trim"]), json);
        for threads in ["1", "3", "256"] {
            assert_eq!(measured(&folder, name, &["--threads", threads]), json);
        }
        if gm_type != "identity" {
            let trimmed = measured(&folder, name, &["--type", gm_type, "--trim"]);
            assert_eq!((&json["how"], &trimmed["how"]), (&Value::from("elected"), &Value::from("trimmed")));
            // the one of the pictures without their light, the other as they are
            assert_eq!(trimmed["stored"]["type"], json["stored"]["type"]);
            for (part, by) in [("right_pels", 0.1), ("down_pels", 0.1), ("zoom", 0.001), ("angle_degrees", 0.05)] {
                let [own, other] = [&trimmed, &json].map(|found| found["stored"][part].as_f64().unwrap());
                near(own, other, by, part);
            }
        }
    }
}

/// What is measured is the fit ahead of the grid; what is stored is on it.
#[test]
fn measured_and_stored_stand_apart() {
    let folder = pictures("apart");
    let found = measured(&folder, "turn", &[]);
    let stored = |name: &str| found["stored"][name].as_f64().unwrap();
    assert!(number(&found, "angle_degrees") != stored("angle_degrees"), "{found}");
    near(number(&found, "angle_degrees"), stored("angle_degrees"), 0.05, "the angle");
    let numbers = found["stored"]["numbers"].as_array().unwrap();
    assert!(numbers[2..].iter().all(|number| number.as_i64().unwrap() % 2 == 0), "on the grid: {found}");
    let text = folder.belt(&["measure", "still.pgm", "turn.pgm"]).out;
    assert!(text.contains("\n  measured   a rotation-zoom, elected\n"), "{text}");
    assert!(text.contains("\n  stored     a rotation-zoom: moved "), "{text}");
}

#[test]
fn a_model_that_does_not_fit_is_no_answer() {
    let folder = pictures("misfit");
    let found = measured(&folder, "turn", &["--type", "translation"]);
    assert_eq!((&found["status"], warnings(&found)), (&Value::from("unexplained"), vec!["few-agree"]));
    for name in ["type", "right_pels", "down_pels", "first_pel_right", "first_pel_down", "zoom", "angle_degrees"] {
        assert!(found["measured"][name].is_null(), "{name} in {found}");
    }
    let words = folder.belt(&["measure", "still.pgm", "turn.pgm", "--type", "translation"]);
    assert!(words.out.contains("\nIt isn't known how it moved: no motion explains the blocks.\n"), "{words:?}");
    assert!(words.out.contains("\n  measured   nothing\n") && words.out.contains("\nwarning: few-agree: only "));
    // whoever names no type has the one that fits
    assert_eq!(measured(&folder, "turn", &[])["measured"]["type"], "rotzoom");
    let said = folder.belt(&["measure", "still.pgm", "turn.pgm", "--within", "9"]);
    assert!(said.status == 2 && said.error.contains("--type"), "{said:?}");
    let found = measured(&folder, "turn", &["--type", "translation", "--within", "9"]);
    assert_eq!((&found["agree"], &found["status"]), (&Value::from(80), &Value::from("measured")));
}

#[test]
fn a_trimmed_fit_leaves_out_what_moves_on_its_own() {
    let folder = Folder::new("trimmed");
    let patched = |patch: [usize; 2], rest: [usize; 2]| {
        noise(move |x, y| if (48..96).contains(&x) && (32..80).contains(&y) { patch } else { rest })
    };
    folder.write("still.pgm", patched([10, 10], [14, 12]));
    folder.write("rolled.pgm", patched([16, 10], [10, 10]));
    for gm_type in ["translation", "rotzoom", "affine"] {
        let plain = measured(&folder, "rolled", &["--type", gm_type]);
        let trimmed = measured(&folder, "rolled", &["--type", gm_type, "--trim"]);
        assert!((plain["stored"]["right_pels"].as_f64().unwrap() - 4.0).abs() > 0.2, "{plain}");
        near(number(&trimmed, "right_pels"), 4.0, 1e-9, gm_type);
        near(number(&trimmed, "down_pels"), 2.0, 1e-9, gm_type);
        assert_eq!(trimmed["stored"]["right_pels"], 4.0, "{trimmed}");
        assert_eq!(trimmed["how"], "trimmed");
    }
}

#[test]
fn deep_pictures_and_frames_of_a_clip_are_read() {
    let folder = pictures("deep");
    let said = folder.belt(&["measure", "deep-still.pgm", "deep-pan.pgm", "--type", "translation"]);
    assert!(said.out.contains("\nIt moved 4 pels left and 2 pels down.\n"), "{said:?}");
    let said = folder.belt(&["measure", "clip.y4m#2", "clip.y4m", "--type", "translation"]);
    assert!(said.out.contains("\nIt moved 4 pels left and 2 pels up.\n"), "{said:?}");
    let clip = fs::read(kept("clip.y4m")).unwrap();
    let said = folder.belt_fed(&["measure", "-", "clip.y4m#1", "--type", "translation"], &clip);
    assert!(said.out.starts_with("standard input to clip.y4m#1: 64×48 pels, 12 blocks of 16×16\n"), "{said:?}");
    assert!(said.out.contains("\nIt moved 2 pels right and 1 pel down.\n"), "{said:?}");
}

/// Blocks of classes that aren't named play no part in what is measured, and are stored all the same.
#[test]
fn a_set_says_which_blocks_are_measured() {
    let folder = pictures("set");
    let classes: Vec<u8> = (0..80).map(|i| if i % 4 == 3 { 4 } else { i % 3 }).collect();
    folder.write("classes", classes.iter().map(|class| format!("{class} ")).collect::<String>());
    for (name, code, options) in [("turn", 2, &[][..]), ("zoom", 3, &["--type", "affine"])] {
        let words = ["--classes", "classes", "--set", "unsorted,1,rigid-plastic", "--blocks", "blocks"];
        let json = measured(&folder, name, &[options, &words].concat());
        let blocks = fs::read(folder.path("blocks")).unwrap();
        let (mut words, mut kinds) = ([0; 80], [9; 80]);
        assert_eq!(belt::read_both(&blocks, &mut words, &mut kinds).unwrap().samples, 80);
        assert_eq!(kinds[..], classes);
        let set = belt::ClassSet::of(&[0, 1, 2]);
        let model = match options {
            [] => belt::elect_by_class(set, 1, &words, &kinds).unwrap().model,
            _ => {
                let fitted = belt::fit_by_class(set, code, &words, &kinds).unwrap();
                belt::quantize_by_class(set, &fitted, 1, &words, &kinds).unwrap().row_first(code)
            }
        };
        assert_eq!(json["stored"]["numbers"], serde_json::json!(model.0), "{json}");
        let score = belt::score_by_class(set, &model.x_first(code), &words, &kinds).unwrap();
        near(json["stored"]["score_square_pels"].as_f64().unwrap(), score, 1e-12, "score");
        assert_eq!(json["blocks"], 80);
        assert!(json["usable"].as_u64() <= Some(60), "{json}");
    }
}

/// Reads back all that a job stored, by the library, and holds it to the report.
#[test]
fn what_is_stored_reads_back_as_the_report() {
    let folder = pictures("stored");
    let classes: Vec<u8> = (0..80).map(|i| i % 5).collect();
    let names = ["0 ", "fibre ", "rigid-plastic ", "3 ", "film\n"];
    folder.write("classes", (0..80).map(|i| names[i % 5]).collect::<String>());
    let prior = StoredModel([4096, -77, 65540, -12, 5, 65530]);
    folder.write("prior", format!("{}\n", prior.0.map(|number| number.to_string()).join(" ")).repeat(7));
    let cases: [(&[&str], &str, u8); 7] = [
        (&["--type", "translation"], "pan", 1),
        (&["--type", "rotzoom"], "turn", 2),
        (&["--type", "affine"], "zoom", 3),
        (&["--type", "rotzoom", "--trim"], "zoom", 2),
        (&[], "still", 0),
        (&[], "pan", 1),
        (&[], "turn", 2),
    ];
    for (fit, name, code) in cases {
        for (start, reference, flag) in [(0usize, 1usize, 1u8), (5, 7, 0)] {
            let words = [
                ["--start", &start.to_string()],
                ["--reference", &reference.to_string()],
                ["--precision", if flag == 1 { "high" } else { "low" }],
                ["--prior", "prior"],
                ["--classes", "classes"],
                ["--frame", "4660"],
                ["--blocks", "blocks"],
                ["--header", "header"],
                ["--models", "models"],
            ];
            let json = measured(&folder, name, &[fit, words.as_flattened()].concat());

            let header = fs::read(folder.path("header")).unwrap();
            let read = belt::read_global_motion_params(&header, start, flag, &[prior; 7]).unwrap();
            assert_eq!(json["header"]["bits"], read.bits);
            assert_eq!(header.len(), (start + read.bits).div_ceil(8));
            let hexadecimal: String = header.iter().map(|byte| format!("{byte:02X}")).collect();
            assert_eq!(json["header"]["bytes"], hexadecimal);
            let mut types = [0; 7];
            types[reference - 1] = code;
            assert_eq!(read.types, types);
            let reported: Vec<&Value> =
                json["models"].as_array().unwrap().iter().map(|model| &model["numbers"]).collect();
            assert!(read.models.iter().map(|model| Value::from(model.0.to_vec())).eq(reported.into_iter().cloned()));

            let blocks = fs::read(folder.path("blocks")).unwrap();
            let (mut words, mut kinds) = ([0; 80], [9; 80]);
            let frame = belt::read_both(&blocks, &mut words, &mut kinds).unwrap();
            assert_eq!((frame.number, frame.samples, blocks.len()), (4660, 80, 512));
            assert_eq!(kinds[..], classes);
            let model = read.models[reference - 1].x_first(code);
            let score = belt::mean_sq_residual(&model, &words).unwrap();
            near(json["stored"]["score_square_pels"].as_f64().unwrap(), score, 1e-12, "score");
            if fit.contains(&"--trim") {
                assert_eq!(Ok(model), belt::quantize_trimmed(code, flag, &words).map(|trimmed| trimmed.model));
            }
            if fit.is_empty() {
                let elected = belt::elect(flag, &words).unwrap();
                assert_eq!((elected.gm_type, elected.model), (code, read.models[reference - 1]));
            }
            let middle = model.motion_at(79.5, 63.5);
            let stored = |name: &str| json["stored"][name].as_f64().unwrap();
            near(stored("right_pels"), middle.u, 1e-9, "stored");
            near(stored("down_pels"), middle.v, 1e-9, "stored");

            // the models' file is a prior and has a price
            let price =
                folder.belt(&["price", "models", "--prior", "prior", "--json", words_of(flag)[0], words_of(flag)[1]]);
            assert_eq!(price.out, format!("{{\"bits\":{}}}\n", read.bits), "{price:?}");
            let again = folder.belt(&["read-header", "header", "--prior", "models"]);
            assert_eq!(again.status, 0, "{again:?}");
            let told = folder.belt(&[
                "read-header",
                "header",
                "--at",
                &start.to_string(),
                "--prior",
                "prior",
                words_of(flag)[0],
                words_of(flag)[1],
            ]);
            assert!(told.out.ends_with(&format!(
                "{} bits, from bit {start} to bit {}\n",
                read.bits,
                start + read.bits
            )));
        }
    }
}

fn words_of(flag: u8) -> [&'static str; 2] {
    ["--precision", if flag == 1 { "high" } else { "low" }]
}

#[test]
fn many_pictures_are_one_line_each_and_their_blocks_stand_in_one_file() {
    let folder = pictures("many");
    let words = ["measure", "still.pgm", "pan.pgm", "still.pgm", "--type", "translation", "--blocks", "all"];
    let said = folder.belt(&words);
    let lines: Vec<&str> = said.out.lines().collect();
    assert_eq!(lines.len(), 3, "{said:?}");
    assert!(lines[0].starts_with("still.pgm to pan.pgm: It moved 6 pels right and 3 pels up; 100 % agree"));
    assert!(lines[1].starts_with("pan.pgm to still.pgm: It moved 6 pels left and 3 pels down; 100 % agree"));
    assert_eq!(lines[2], "2 pairs, 0 with a warning or without an answer");
    let listed = folder.belt(&["list", "all"]);
    let heads: Vec<&str> = listed.out.lines().filter(|line| line.starts_with("frame")).collect();
    assert_eq!(heads, ["frame 1 block 0 count 80", "frame 2 block 0 count 80"]);

    let frames = folder.path("frames");
    fs::create_dir(&frames).unwrap();
    for (name, number) in [("still", 1), ("pan", 2), ("zoom", 3)] {
        fs::copy(kept(&format!("{name}.pgm")), frames.join(format!("{number:04}.pgm"))).unwrap();
    }
    fs::write(frames.join("notes.txt"), "not a picture").unwrap();
    let said = folder.belt(&["measure", "frames", "--type", "translation", "--json"]);
    assert_eq!(said.out.lines().count(), 2, "{said:?}");
    assert!(said.out.lines().all(|line| line.starts_with("{\"input\":\"frames/000") && line.ends_with("]}")));
    let said = folder.belt(&["measure", "frames", "--type", "rotzoom", "--picture", "x.png"]);
    assert_eq!(said.error, "belt: --picture: for two pictures alone, not for more\n");
}

#[test]
fn a_part_is_measured_where_the_whole_is_too_large() {
    let folder = Folder::new("large");
    let plane = |dx: usize| -> Vec<u8> {
        let pel = |i: usize| ((i % 1100 + dx) * 7919 % 1_000_003 * (i / 1100 + 31) % 251) as u8;
        [b"P5 1100 40 255\n".to_vec(), (0..1100 * 40).map(pel).collect()].concat()
    };
    folder.write("a.pgm", plane(4));
    folder.write("b.pgm", plane(0));
    let said = folder.belt(&["measure", "a.pgm", "b.pgm", "--type", "translation", "--blocks", "blocks"]);
    let text = "belt: a.pgm: refused, 1: the picture is too large, or the samples are too many; 1100×40 pels are too many: --crop X,Y,W,H \
                measures a part, --halve all\n";
    assert_eq!((said.status, said.out.as_str(), said.error.as_str()), (1, "", text));
    let said = folder.belt(&["measure", "a.pgm", "b.pgm", "--type", "translation", "--crop", "60,2,1025,32"]);
    assert!(said.status == 1 && said.error.contains("refused, 1: the picture is too large"), "{said:?}");
    let said = folder.belt(&["measure", "a.pgm", "b.pgm", "--type", "translation", "--crop", "60,2,1024,32"]);
    assert!(said.out.contains("1024×32 pels, 128 blocks") && said.out.contains("It moved 4 pels right."), "{said:?}");
    assert_eq!(folder.names(), ["a.pgm", "b.pgm"]);
}

#[test]
fn a_practice_belt_is_measured() {
    let folder = Folder::new("practice");
    let said = folder.belt(&["practice", "a.pgm", "b.pgm", "--size", "96x64", "--shift", "-6,4", "--seed", "9"]);
    assert_eq!(said.out, "a.pgm to b.pgm: 6 pels left and 4 pels down, 96×64 pels of seed 9\n", "{said:?}");
    let (mut input, mut reference) = (vec![0; 96 * 64], vec![0; 96 * 64]);
    belt::make_practice_planes(9, 96, 64, 4, -6, &mut input, &mut reference).unwrap();
    for (name, plane) in [("a.pgm", input), ("b.pgm", reference)] {
        let bytes: Vec<u8> = plane.iter().flat_map(|pel| pel.to_be_bytes()).collect();
        assert_eq!(fs::read(folder.path(name)).unwrap(), [b"P5\n96 64\n65535\n".to_vec(), bytes].concat());
    }
    let said = folder.belt(&["measure", "a.pgm", "b.pgm", "--type", "translation"]);
    assert!(said.out.contains("\nIt moved 6 pels left and 4 pels down.\n"), "{said:?}");
}

#[test]
fn blocks_are_listed_and_converted() {
    let folder = pictures("blocks");
    measured(&folder, "pan", &["--type", "translation", "--blocks", "new", "--frame", "7"]);
    let listed = folder.belt(&["list", "new"]);
    assert!(listed.out.starts_with("frame 7 block 0 count 80\n0 0 -24 48 0\n"), "{listed:?}");
    let table = folder.belt(&["list", "new", "--csv"]);
    let rows = "frame,row,column,x,y,right,down,class\n7,0,0,7.5,7.5,6,-3,unsorted\n";
    assert!(table.out.starts_with(rows) && table.out.lines().count() == 81, "{table:?}");
    assert_eq!(folder.belt(&["convert", "new", "old", "--to", "1"]).out, "old: 1 frame, 1 block\n");
    assert_eq!(folder.belt(&["convert", "old", "back"]).out, "back: 1 frame, 1 block\n");
    assert_eq!(fs::read(folder.path("new")).unwrap(), fs::read(folder.path("back")).unwrap());
    assert_eq!(fs::read(folder.path("old")).unwrap()[2], 1);

    let mut broken = fs::read(folder.path("new")).unwrap().repeat(3);
    broken[512 + 20] ^= 1;
    broken.truncate(1500);
    folder.write("broken", &broken);
    let said = folder.belt(&["list", "broken"]);
    let refused: Vec<&str> = said.out.lines().filter(|line| line.starts_with("refused")).collect();
    assert_eq!((said.status, refused), (1, vec!["refused 10", "refused 9"]));
    assert_eq!(
        said.error,
        "belt: broken, block 1 (byte 512): refused, 10: the block is damaged: its check doesn't go with its bytes; and 1 more\n"
    );
    let said = folder.belt(&["convert", "broken", "out", "--to", "1"]);
    assert_eq!(
        (said.status, said.error.as_str()),
        (
            1,
            "belt: broken, frame at byte 512: refused, 10: the block is damaged: its check doesn't go with its bytes\n"
        )
    );
    assert!(!folder.path("out").exists());
}

#[test]
fn a_key_frame_has_no_bits() {
    let folder = Folder::new("key");
    folder.write("header", [0xFF]);
    let said = folder.belt(&["read-header", "header", "--key"]);
    assert!(said.out.ends_with("0 bits, from bit 0 to bit 0\n"), "{said:?}");
    let text: String =
        IDENTITIES.map(|model| format!("identity {}\n", model.0.map(|n| n.to_string()).join(" "))).concat();
    folder.write("models", &text);
    assert_eq!(folder.belt(&["price", "models", "--key"]).out, "models: 0 bits, 0 bytes from bit 0 on\n");
    assert_eq!(folder.belt(&["price", "models"]).out, "models: 7 bits, 1 bytes from bit 0 on\n");
}
