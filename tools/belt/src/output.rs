//! What the tool writes: standard output, and files that are there whole or not at all.

use crate::failure::Failure;
pub use frames::shown;
use signal_hook::consts::{SIGHUP, SIGINT, SIGTERM};
use signal_hook::iterator::Signals;
use std::collections::hash_map::RandomState;
use std::ffi::OsString;
use std::fs::{self, File, OpenOptions};
use std::hash::{BuildHasher, Hasher};
use std::io::{self, BufWriter, ErrorKind, Seek, SeekFrom, Write};
use std::os::unix::fs::MetadataExt;
use std::path::{Path, PathBuf};
use std::sync::atomic::{AtomicBool, Ordering};
use std::sync::{Mutex, MutexGuard, PoisonError};
use std::{env, thread};

/// Whether nobody reads standard output any more.
static CLOSED: AtomicBool = AtomicBool::new(false);

pub fn is_closed() -> bool {
    CLOSED.load(Ordering::Relaxed)
}

/// Standard output. Once its reader has ended, what is written goes nowhere, and that is no failure.
pub struct Out;

impl Write for Out {
    fn write(&mut self, bytes: &[u8]) -> io::Result<usize> {
        unless_closed(io::stdout().lock().write(bytes), bytes.len())
    }

    fn flush(&mut self) -> io::Result<()> {
        unless_closed(io::stdout().lock().flush(), ())
    }
}

fn unless_closed<T>(done: io::Result<T>, all: T) -> io::Result<T> {
    match done {
        Err(error) if error.kind() == ErrorKind::BrokenPipe => {
            CLOSED.store(true, Ordering::Relaxed);
            Ok(all)
        }
        done => done,
    }
}

/// A failure of standard output.
pub fn unwritten(error: impl ToString) -> Failure {
    Failure::bad("standard output", error)
}

/// Writes a text to standard output, to its end.
pub fn print(text: &str) -> Result<(), Failure> {
    if is_closed() {
        return Ok(());
    }
    Out.write_all(text.as_bytes()).and_then(|()| Out.flush()).map_err(unwritten)
}

/// The files that wait for their names, to be removed if a signal ends the tool.
static PARTS: Mutex<Vec<PathBuf>> = Mutex::new(Vec::new());

fn parts() -> MutexGuard<'static, Vec<PathBuf>> {
    PARTS.lock().unwrap_or_else(PoisonError::into_inner)
}

/// Removes them where the tool ends at once. Whoever holds them is about to name them all or remove them itself.
pub fn remove_parts() {
    if let Ok(parts) = PARTS.try_lock() {
        parts.iter().for_each(|part| drop(fs::remove_file(part)));
    }
}

/// From the first file on, a signal that ends the tool removes what waits.
fn watch_signals() -> io::Result<()> {
    static WATCHED: AtomicBool = AtomicBool::new(false);
    if WATCHED.swap(true, Ordering::Relaxed) {
        return Ok(());
    }
    let mut signals = Signals::new([SIGHUP, SIGINT, SIGTERM])?;
    let watch = move || {
        if let Some(signal) = signals.forever().next() {
            // held to the end, so that no other file begins
            let parts = parts();
            parts.iter().for_each(|part| drop(fs::remove_file(part)));
            let _ = signal_hook::low_level::emulate_default_handler(signal);
        }
    };
    thread::Builder::new().spawn(watch).map(drop)
}

/// Which file a path names: one that is there, by the disk's number, or a new name in a folder.
#[derive(PartialEq, Eq)]
enum Identity {
    There(u64, u64),
    New(PathBuf, OsString),
}

impl Identity {
    /// None for what can't be overwritten: devices, pipes, folders.
    fn of(path: &Path) -> Option<Identity> {
        match fs::metadata(path) {
            Ok(data) => data.is_file().then(|| Identity::There(data.dev(), data.ino())),
            Err(_) => Some(Identity::New(fs::canonicalize(folder(path)).ok()?, path.file_name()?.into())),
        }
    }
}

fn folder(path: &Path) -> &Path {
    path.parent().filter(|folder| !folder.as_os_str().is_empty()).unwrap_or(Path::new("."))
}

/// Files that wait beside their places until all is well. Those that aren't kept are removed.
pub struct Files {
    waiting: Vec<Waiting>,
    /// Whether one of them is standard output, so that words go to standard error.
    prints: bool,
}

/// A file among those that wait.
#[derive(Clone, Copy)]
pub struct At(usize);

struct Waiting {
    name: String,
    target: Target,
    part: PathBuf,
    file: BufWriter<File>,
}

enum Target {
    File(PathBuf),
    /// A device or a pipe.
    Device(PathBuf),
    Stdout,
}

impl Files {
    /// Judges all inputs and outputs of a run before anything is read: no output is an input, no two are one file, and
    /// each can be written.
    pub fn judge<'a>(
        inputs: impl IntoIterator<Item = &'a Path>,
        outputs: impl IntoIterator<Item = &'a Path>,
    ) -> Result<Files, Failure> {
        let dash = Path::new("-");
        let place = |path: &Path, own: &str| Identity::of(if path == dash { Path::new(own) } else { path });
        let read: Vec<Identity> = inputs.into_iter().filter_map(|path| place(path, "/dev/stdin")).collect();
        let outputs: Vec<&Path> = outputs.into_iter().collect();
        let dashes = outputs.iter().filter(|path| **path == dash).count();
        let prints = dashes > 0;
        let mut seen = Vec::new();
        // words are an output too
        for path in (!prints).then_some(dash).into_iter().chain(outputs) {
            let own = place(path, "/dev/stdout");
            let what = match &own {
                Some(own) if read.contains(own) => "it is read too, and would be overwritten",
                Some(own) if seen.contains(own) => "two outputs are this file",
                _ if path == dash && dashes > 1 => "two outputs are this file",
                _ => "",
            };
            if !what.is_empty() {
                return Err(Failure::bad(shown_output(path), what));
            }
            // what can't be written is said before anything is read, too
            target(path).map_err(|error| Failure::bad(shown_output(path), error))?;
            seen.extend(own);
        }
        Ok(Files { waiting: Vec::new(), prints })
    }

    /// Says something: on standard output, or on standard error where a file goes there.
    pub fn say(&self, text: &str) -> Result<(), Failure> {
        if !self.prints {
            return print(text);
        }
        let _ = io::stderr().write_all(text.as_bytes());
        Ok(())
    }

    /// Writes a file that waits for its name.
    pub fn add(&mut self, path: &Path, bytes: &[u8]) -> Result<(), Failure> {
        let file = self.create(path)?;
        self.append(file, bytes)
    }

    /// Writes on in a file that waits.
    pub fn append(&mut self, At(file): At, bytes: &[u8]) -> Result<(), Failure> {
        let Waiting { name, file, .. } = &mut self.waiting[file];
        file.write_all(bytes).map_err(|error| Failure::bad(&*name, error))
    }

    /// A file that waits for its name, to be written.
    pub fn create(&mut self, path: &Path) -> Result<At, Failure> {
        let name = shown_output(path);
        let waiting = waiting(path, &name).map_err(|error| Failure::bad(&name, error))?;
        self.waiting.push(waiting);
        Ok(At(self.waiting.len() - 1))
    }

    /// A file that waits.
    pub fn file(&mut self, At(file): At) -> &mut impl Write {
        &mut self.waiting[file].file
    }

    /// Gives each file its name: all of them or none.
    pub fn keep(mut self) -> Result<(), Failure> {
        for waiting in &mut self.waiting {
            let name = waiting.name.clone();
            waiting.finish().map_err(|error| Failure::bad(name, error))?;
        }
        let mut parts = parts();
        let many = self.waiting.len() > 1;
        let mut named: Vec<(&Path, Option<PathBuf>)> = Vec::new();
        let mut failure = None;
        for Waiting { name, target, part, .. } in &self.waiting {
            let Target::File(target) = target else { continue };
            // what was there waits beside it, until all have their names
            let before = (many && target.exists()).then(|| part.with_extension("old"));
            let before = before.filter(|before| fs::hard_link(target, before).is_ok());
            match fs::rename(part, target) {
                Ok(()) => named.push((target, before)),
                Err(error) => {
                    before.iter().for_each(|before| drop(fs::remove_file(before)));
                    failure = Some(Failure::bad(name, error));
                    break;
                }
            }
        }
        for (target, before) in named {
            let _ = match (before, failure.is_some()) {
                (Some(before), true) => fs::rename(before, target),
                (Some(before), false) => fs::remove_file(before),
                (None, true) => fs::remove_file(target),
                (None, false) => Ok(()),
            };
        }
        parts.retain(|part| part.exists());
        drop(parts);
        failure.map_or(Ok(()), Err)
    }
}

fn shown_output(path: &Path) -> String {
    if path == Path::new("-") { "standard output".into() } else { shown(path) }
}

/// The file that waits for a path.
fn waiting(path: &Path, name: &str) -> io::Result<Waiting> {
    let (target, mode) = target(path)?;
    let beside = match &target {
        Target::File(target) => folder(target).to_path_buf(),
        _ => env::temp_dir(),
    };
    watch_signals()?;
    let mut parts = parts();
    let (part, file) = loop {
        let number = RandomState::new().build_hasher().finish();
        let part = beside.join(format!(".belt-{number:016x}.part"));
        match OpenOptions::new().read(true).write(true).create_new(true).open(&part) {
            Err(error) if error.kind() == ErrorKind::AlreadyExists => {}
            opened => break (part, opened?),
        }
    };
    parts.push(part.clone());
    drop(parts);
    let waiting = Waiting { name: name.into(), target, part, file: BufWriter::new(file) };
    if let Some(mode) = mode {
        waiting.file.get_ref().set_permissions(mode)?;
    }
    Ok(waiting)
}

/// What a path names, and the mode of a file that is there.
fn target(path: &Path) -> io::Result<(Target, Option<fs::Permissions>)> {
    if path == Path::new("-") {
        return Ok((Target::Stdout, None));
    }
    // a link's own file is replaced, not the link
    let target = match fs::canonicalize(path) {
        Ok(target) => target,
        // /dev/stdout is a link to what has no name where that is a pipe
        Err(_) if fs::metadata(path).is_ok() => return Ok((Target::Device(path.into()), None)),
        Err(_) if fs::symlink_metadata(path).is_ok_and(|data| data.is_symlink()) => {
            return Err(io::Error::other("a link to a file that isn't there"));
        }
        Err(error) if error.kind() == ErrorKind::NotFound => {
            fs::metadata(folder(path))?;
            return Ok((Target::File(path.into()), None));
        }
        Err(error) => return Err(error),
    };
    let data = fs::metadata(&target)?;
    if data.is_dir() {
        return Err(io::Error::from(ErrorKind::IsADirectory));
    }
    if !data.is_file() {
        return Ok((Target::Device(target), None));
    }
    if data.permissions().readonly() {
        return Err(io::Error::other("it is read-only"));
    }
    OpenOptions::new().append(true).open(&target)?;
    Ok((Target::File(target), Some(data.permissions())))
}

impl Waiting {
    /// Writes it to its end. What can't be renamed is copied.
    fn finish(&mut self) -> io::Result<()> {
        self.file.flush()?;
        let file = self.file.get_mut();
        file.seek(SeekFrom::Start(0))?;
        match &self.target {
            Target::File(_) => file.sync_all(),
            Target::Device(device) => io::copy(file, &mut OpenOptions::new().write(true).open(device)?).map(drop),
            Target::Stdout => io::copy(file, &mut Out).and_then(|_| Out.flush()),
        }
    }
}

impl Drop for Waiting {
    fn drop(&mut self) {
        let mut parts = parts();
        // it is one's own until it is named or removed
        if let Some(at) = parts.iter().position(|part| *part == self.part) {
            let _ = fs::remove_file(&self.part);
            parts.remove(at);
        }
    }
}
