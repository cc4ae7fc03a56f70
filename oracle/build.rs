//! Prepares the ported Rust for `include!`: the files go to OUT_DIR as they are, with `//!` made `//`,
//! and five parts are cut out of functions and of frame_obu.rs. None of it is kept in this repository.

use std::path::PathBuf;
use std::process::exit;
use std::{env, fs};

/// Seen from the package's folder; the variable OXIDEAV_SRC names another folder.
const DEFAULT_SOURCE: &str = "../../shared/docs/src";

fn main() {
    let header_tail = source("uncompressed_header_tail.rs");
    let bitwriter = source("encoder/bitwriter.rs");
    let frame_obu = source("encoder/frame_obu.rs");
    let global_motion = source("encoder/global_motion.rs");

    let global_motion_writer = cut(&frame_obu, "fn recenter(", "fn encode_inter_global_motion(", "}");
    let downsample = cut(&global_motion, "    let (hw, hh) =", "    let downsample =", "    };");
    let clamp = "        let raw = raw.clamp(";
    let grid_number = cut(&global_motion, "        let raw = (t * scale)", clamp, clamp);

    let quantized = "    let params = quantize_model(";
    let trimmed = cut(&global_motion, "    let min_samples = match gm_type", quantized, quantized);

    let residuals = "    let mut residuals: Vec<f64> = samples";
    let residuals = cut(&global_motion, residuals, residuals, "        .collect();");

    prepare("uncompressed_header_tail.rs", &header_tail);
    prepare("bitwriter.rs", &bitwriter);
    prepare("frame_obu.rs", &global_motion_writer);
    prepare("global_motion.rs", &global_motion);
    prepare("half_plane.rs", &format!("{{\n{downsample}\n    downsample(plane)\n}}"));
    prepare("trimmed.rs", &format!("{{\n{trimmed}\n    Some((model.m, scored_samples.len(), params))\n}}"));
    prepare("residuals.rs", &format!("{{\n{residuals}\n    residuals.split_off(0)\n}}"));
    prepare("grid_number.rs", &format!("{{\n{grid_number}\n        raw\n}}"));
}

/// The text of a file of the ported Rust. A relative folder is taken from the package's folder.
fn source(name: &str) -> String {
    println!("cargo:rerun-if-env-changed=OXIDEAV_SRC");
    let package = PathBuf::from(env::var("CARGO_MANIFEST_DIR").expect("cargo names the package's folder"));
    let folder = env::var("OXIDEAV_SRC").unwrap_or(DEFAULT_SOURCE.into());
    let path = package.join(folder).join(name);
    println!("cargo:rerun-if-changed={}", path.display());
    fs::read_to_string(&path).unwrap_or_else(|error| {
        let message = format!("{}: {error}; OXIDEAV_SRC names the folder of the ported Rust", path.display());
        println!("cargo:warning={message}");
        eprintln!("{message}");
        exit(1)
    })
}

/// The lines from the first that begins with `from`, through the `end` line of the `last` item.
fn cut(text: &str, from: &str, last: &str, end: &str) -> String {
    let lines: Vec<&str> = text.lines().collect();
    let find = |start: usize, prefix: &str| {
        let found = lines[start..].iter().position(|line| line.starts_with(prefix));
        start + found.unwrap_or_else(|| panic!("no line of the ported Rust begins with {prefix:?}"))
    };
    let first = find(0, from);
    let stop = find(find(first, last), end);
    lines[first..=stop].join("\n")
}

/// Writes a file for `include!`, which takes no `//!` line.
fn prepare(name: &str, text: &str) {
    let plain: String = text
        .lines()
        .map(|line| match line.strip_prefix("//!") {
            Some(rest) => format!("//{rest}\n"),
            None => format!("{line}\n"),
        })
        .collect();
    let folder = PathBuf::from(env::var("OUT_DIR").expect("cargo names the output folder"));
    fs::write(folder.join(name), plain).expect("the output folder takes files");
}
