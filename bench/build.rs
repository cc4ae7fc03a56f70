//! Hands the compiler's name and flags to the program that prints them, and links the two writers of a field and the search by
//! hand, which `run` makes by `rt lib` of the crate bench_placing and of `hand/search.c`.

use std::env;
use std::process::Command;

fn main() {
    let rustc = env::var("RUSTC").expect("cargo names its compiler");
    let version = Command::new(rustc).arg("--version").output().expect("the compiler says its version");
    println!("cargo:rustc-env=BENCH_RUSTC={}", String::from_utf8_lossy(&version.stdout).trim());
    println!("cargo:rustc-env=BENCH_OPT_LEVEL={}", env::var("OPT_LEVEL").expect("cargo names its level"));
    let flags = env::var("CARGO_ENCODED_RUSTFLAGS").unwrap_or_default().replace('\u{1f}', " ");
    println!("cargo:rustc-env=BENCH_RUSTFLAGS={flags}");
    let package = env::var("CARGO_MANIFEST_DIR").expect("cargo names the package's folder");
    for (folder, library) in [("crates/bench_placing/out", "bench_placing"), ("target/hand", "hand")] {
        let folder = format!("{package}/../{folder}");
        println!("cargo:rerun-if-changed={folder}/lib{library}.a");
        println!("cargo:rustc-link-search=native={folder}");
        println!("cargo:rustc-link-lib=static={library}");
    }
}
