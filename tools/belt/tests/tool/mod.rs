//! The tool as a program, and folders to try it in.
#![allow(dead_code)] // each test file uses a part

pub mod drawn;

use serde_json::Value;
use std::fs;
use std::io::Write;
use std::path::{Path, PathBuf};
use std::process::{self, Command, Output, Stdio};

/// What a run said, and its status.
#[derive(Debug)]
pub struct Said {
    pub status: i32,
    pub out: String,
    pub error: String,
}

impl Said {
    fn of(output: Output) -> Self {
        Said {
            status: output.status.code().expect("no signal ended it"),
            out: String::from_utf8(output.stdout).expect("it prints text"),
            error: String::from_utf8(output.stderr).expect("it prints text"),
        }
    }
}

/// A folder that is gone at the end.
pub struct Folder(pub PathBuf);

impl Folder {
    pub fn new(name: &str) -> Self {
        let path = std::env::temp_dir().join(format!("belt-tool-{}-{name}", process::id()));
        fs::create_dir_all(&path).unwrap();
        Folder(path)
    }

    pub fn path(&self, name: &str) -> PathBuf {
        self.0.join(name)
    }

    pub fn write(&self, name: &str, bytes: impl AsRef<[u8]>) -> PathBuf {
        fs::write(self.path(name), bytes).unwrap();
        self.path(name)
    }

    pub fn names(&self) -> Vec<String> {
        let mut names: Vec<_> =
            fs::read_dir(&self.0).unwrap().map(|file| file.unwrap().file_name().into_string().unwrap()).collect();
        names.sort();
        names
    }

    pub fn command(&self, words: &[&str]) -> Command {
        let mut command = Command::new(env!("CARGO_BIN_EXE_belt"));
        command.args(words).current_dir(&self.0).stdin(Stdio::null());
        command
    }

    /// Runs the tool in the folder.
    pub fn belt(&self, words: &[&str]) -> Said {
        Said::of(self.command(words).output().unwrap())
    }

    /// The same with bytes on standard input.
    pub fn belt_fed(&self, words: &[&str], input: &[u8]) -> Said {
        let mut child = self.command(words);
        let mut child = child.stdin(Stdio::piped()).stdout(Stdio::piped()).stderr(Stdio::piped()).spawn().unwrap();
        // a tool that has seen enough closes the pipe
        let _ = child.stdin.take().unwrap().write_all(input);
        Said::of(child.wait_with_output().unwrap())
    }

    pub fn said(&self, output: Output) -> Said {
        Said::of(output)
    }
}

impl Drop for Folder {
    fn drop(&mut self) {
        let _ = fs::remove_dir_all(&self.0);
    }
}

/// A picture that is kept.
pub fn kept(name: &str) -> PathBuf {
    Path::new(env!("CARGO_MANIFEST_DIR")).join("tests/pictures").join(name)
}

/// A folder with all pictures that are kept.
pub fn pictures(name: &str) -> Folder {
    let folder = Folder::new(name);
    for file in fs::read_dir(kept("")).unwrap() {
        let path = file.unwrap().path();
        fs::copy(&path, folder.path(path.file_name().unwrap().to_str().unwrap())).unwrap();
    }
    folder
}

/// A line of JSON.
pub fn json(text: &str) -> Value {
    serde_json::from_str(text).unwrap_or_else(|error| panic!("{error} in {text}"))
}

/// A number of what was measured.
pub fn number(json: &Value, name: &str) -> f64 {
    json["measured"][name].as_f64().unwrap_or_else(|| panic!("{name} in {json}"))
}

/// The names of the warnings.
pub fn warnings(json: &Value) -> Vec<&str> {
    json["warnings"].as_array().unwrap().iter().map(|warning| warning["name"].as_str().unwrap()).collect()
}

/// A picture of noise, 160×128, that shows in each place the noise from another place on.
pub fn noise(from: impl Fn(usize, usize) -> [usize; 2]) -> Vec<u8> {
    let pel = |i: usize| {
        let (x, y) = (i % 160, i / 160);
        let [right, down] = from(x, y);
        let (x, y) = ((x + right) as u64, (y + down) as u64);
        let h = x.wrapping_mul(0x9E37_79B9_7F4A_7C15) ^ y.wrapping_mul(0xC2B2_AE3D_27D4_EB4F);
        ((h ^ h >> 29).wrapping_mul(0xBF58_476D_1CE4_E5B9) >> 40) as u8
    };
    [b"P5 160 128 255\n".to_vec(), (0..160 * 128).map(pel).collect()].concat()
}

/// A smooth picture, 160×128, moved by parts of a pel.
pub fn smooth(right: f64, down: f64) -> Vec<u8> {
    let pel = |i: usize| {
        let (x, y) = ((i % 160) as f64 - right, (i / 160) as f64 - down);
        let waves = [(0.31, 0.17, 1.0), (-0.23, 0.37, 2.0), (0.53, -0.11, 3.0), (0.13, 0.61, 0.5), (0.7, 0.45, 1.3)];
        let sum: f64 = waves.iter().map(|(a, b, c)| (a * x + b * y + c).sin()).sum();
        (127.5 + 22.0 * sum).round() as u8
    };
    [b"P5 160 128 255\n".to_vec(), (0..160 * 128).map(pel).collect()].concat()
}
