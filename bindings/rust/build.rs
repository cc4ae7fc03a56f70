// SPDX-License-Identifier: MIT
//! Finds the library, and links it: in the folder that BELT_LIB names; else where pkg-config says that it is installed;
//! else in the repository that this package stands in, where `bindings/library` makes it by `rt lib` if it isn't
//! there or any file under `crates/` is newer. The static library is linked where the folder has one, else the shared.
//! One of another major version, or of an older minor one than this package, is refused here, in one line.

use std::fmt::Display;
use std::path::{Path, PathBuf};
use std::process::{Command, Stdio, exit};
use std::time::Instant;
use std::{env, fs};

/// The repository's top, seen from this package.
const TOP: &str = "../..";

fn main() {
    println!("cargo:rerun-if-env-changed=BELT_LIB");
    if env::var("CARGO_CFG_TARGET_ARCH").is_ok_and(|arch| arch != "x86_64") {
        say_and_end("the library is made for x86-64 alone");
    }
    let package = PathBuf::from(env::var("CARGO_MANIFEST_DIR").expect("cargo names the package's folder"));
    let top = repository(&package);
    println!("cargo:rustc-check-cfg=cfg(belt_repository)");
    if top.is_some() {
        println!("cargo:rustc-cfg=belt_repository");
    }
    let folder = named(&package, top.as_deref())
        .or_else(|| installed(top.is_some()))
        .or_else(|| top.as_deref().map(made))
        .unwrap_or_else(|| {
            say_and_end("no library: BELT_LIB names no folder, pkg-config knows no belt that fits, no repository")
        });
    link(&folder);
}

/// The repository's top, if the package stands in one.
fn repository(package: &Path) -> Option<PathBuf> {
    let top = fs::canonicalize(package.join(TOP)).ok()?;
    top.join("bindings/library").is_file().then_some(top)
}

/// The folder of BELT_LIB, seen from the repository's top, or from the package where there is none.
fn named(package: &Path, top: Option<&Path>) -> Option<PathBuf> {
    let named = env::var_os("BELT_LIB").filter(|name| !name.is_empty())?;
    Some(top.unwrap_or(package).join(named))
}

/// The folder where pkg-config says that the library is, if its version fits. In the repository that is said.
fn installed(in_repository: bool) -> Option<PathBuf> {
    for name in ["PKG_CONFIG", "PKG_CONFIG_PATH", "PKG_CONFIG_LIBDIR", "PKG_CONFIG_SYSROOT_DIR"] {
        println!("cargo:rerun-if-env-changed={name}");
    }
    let program = env::var_os("PKG_CONFIG").unwrap_or("pkg-config".into());
    let ask = |what: &str| {
        let output = Command::new(&program).args([what, "belt"]).stderr(Stdio::null()).output().ok()?;
        let said = String::from_utf8(output.stdout).ok()?.trim_end().to_owned();
        (output.status.success() && !said.is_empty()).then_some(said)
    };
    let (version, folder) = (ask("--modversion")?, ask("--variable=libdir")?);
    // a space may stand behind a backslash
    let folder = PathBuf::from(folder.replace("\\ ", " "));
    if !fits(&version) {
        let own = own_version();
        println!("cargo:warning=pkg-config knows belt {version}, which doesn't fit this package, belt {own}");
        return None;
    }
    if in_repository {
        println!("cargo:warning=linking the installed library of {}; BELT_LIB names another", folder.display());
    }
    println!("cargo:rerun-if-changed={}", folder.join("pkgconfig/belt.pc").display());
    Some(folder)
}

/// Whether a library of a version fits: the same major number, and a minor one that isn't less.
fn fits(version: &str) -> bool {
    let numbers = |text: &str| -> Option<(u32, u32)> {
        let mut parts = text.split('.').map(|part| part.parse().ok());
        Some((parts.next()??, parts.next()??))
    };
    let own = numbers(&own_version()).expect("the package has a version");
    numbers(version).is_some_and(|(major, minor)| major == own.0 && minor >= own.1)
}

fn own_version() -> String {
    env::var("CARGO_PKG_VERSION").expect("cargo names the package's version")
}

/// The folder that the repository makes it in.
fn made(top: &Path) -> PathBuf {
    for source in ["crates", "crates.txt", "bindings/library", "bindings/c/version.c", "VERSION"] {
        println!("cargo:rerun-if-changed={}", top.join(source).display());
    }
    let begun = Instant::now();
    let library = Command::new(top.join("bindings/library")).stderr(Stdio::piped()).output();
    let output = library.unwrap_or_else(|error| say_and_end(format!("bindings/library doesn't run: {error}")));
    let said = String::from_utf8_lossy(&output.stderr);
    if !output.status.success() {
        let last = said.lines().last().unwrap_or("bindings/library failed");
        eprintln!("{said}");
        say_and_end(last);
    }
    if let Some(first) = said.lines().next() {
        println!("cargo:warning={first}: done in {} s", begun.elapsed().as_secs());
    }
    PathBuf::from(String::from_utf8_lossy(&output.stdout).trim_end())
}

/// Links what the folder has, if it is of this package's major version: the name of a call has that number.
fn link(folder: &Path) {
    let (archive, shared) = (folder.join("libbelt.a"), folder.join("libbelt.so"));
    let (kind, library) = if archive.is_file() { ("static", archive) } else { ("dylib", shared) };
    let bytes = fs::read(&library).unwrap_or_else(|_| {
        say_and_end(format!("no libbelt.a and no libbelt.so in {}", folder.display()));
    });
    let major = own_version().split('.').next().unwrap_or_default().to_owned();
    let name = format!("belt_abi_{major}\0");
    if !bytes.windows(name.len()).any(|window| window == name.as_bytes()) {
        let (library, own) = (library.display(), own_version());
        say_and_end(format!("{library} is of another major version, or older than 0.14.0; this package is {own}"));
    }
    println!("cargo:rerun-if-changed={}", library.display());
    println!("cargo:rustc-link-search=native={}", folder.display());
    println!("cargo:rustc-link-lib={kind}=belt");
}

/// One line, and no backtrace.
fn say_and_end(message: impl Display) -> ! {
    println!("cargo:warning={message}");
    exit(1)
}
