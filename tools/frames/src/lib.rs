//! Grey pictures from files, known by their content: PGM and PPM (`pnm`), PNG (`png`), and frames of Y4M (`y4m`), one by
//! one or all of a clip.
//!
//! A picture is opened first, so that its sides are judged before its pels are read. It is read row by row: nothing is
//! kept but the part that is asked for.
//!
//! ```
//! use frames::Part;
//! use std::path::Path;
//!
//! let opened = frames::open(Path::new("../belt/tests/pictures/deep-pan.pgm"))?;
//! let (width, height) = opened.sides();
//! let half = opened.read(Part { window: None, halvings: 1 })?;
//! assert_eq!((half.width, half.height, half.times), (width / 2, height / 2, 2));
//! # Ok::<(), frames::Unread>(())
//! ```
#![forbid(unsafe_code)]
#![deny(missing_docs)]

mod order;
mod png;
mod pnm;
mod y4m;

pub use y4m::Clip;

use std::error::Error;
use std::ffi::OsStr;
use std::fmt;
use std::fs::{self, File};
use std::io::{self, BufRead, BufReader, Cursor, Read};
use std::os::unix::ffi::OsStrExt;
use std::path::{Path, PathBuf};

/// No picture has a longer side than this; a head that says so is broken.
const LONGEST_SIDE: u64 = 65_535;
/// No head of a picture is longer than this, comments and all.
const LONGEST_HEAD: usize = 65_536;

/// Room for at most so many pels is made ahead of them: a head may say more than there are.
const MOST_AHEAD: usize = 1 << 20;

/// Why a picture or a folder can't be read.
#[derive(Clone, Debug, PartialEq, Eq)]
pub struct Unread {
    /// The file, as it was named.
    pub place: String,
    /// What is wrong with it, and what helps.
    pub what: String,
}

impl Unread {
    fn of(place: impl Into<String>, what: impl ToString) -> Self {
        Unread { place: place.into(), what: what.to_string() }
    }
}

impl fmt::Display for Unread {
    fn fmt(&self, f: &mut fmt::Formatter<'_>) -> fmt::Result {
        write!(f, "{}: {}", self.place, self.what)
    }
}

impl Error for Unread {}

/// A text without control characters, which file names and broken files may bring in.
pub fn one_line(text: &str) -> String {
    text.chars().flat_map(|c| if c.is_control() { c.escape_default().collect() } else { vec![c] }).collect()
}

/// A path as a person reads it, in one line.
pub fn shown(path: impl AsRef<Path>) -> String {
    match path.as_ref().to_string_lossy().as_ref() {
        "-" => "standard input".into(),
        text => one_line(text),
    }
}

/// A part of a picture, in pels, and how often it is halved.
#[derive(Clone, Copy, Debug, Default, PartialEq, Eq)]
pub struct Part {
    /// Column, row, width and height.
    pub window: Option<[usize; 4]>,
    /// So many times.
    pub halvings: u32,
}

impl Part {
    /// The sides of what is measured of a picture.
    pub fn sides(self, (width, height): (usize, usize)) -> (usize, usize) {
        let [_, _, width, height] = self.window.unwrap_or([0, 0, width, height]);
        (width >> self.halvings, height >> self.halvings)
    }

    /// Its column, row, width and height, if it lies inside a picture of these sides, or why it doesn't.
    pub fn inside(self, (width, height): (usize, usize)) -> Result<[usize; 4], String> {
        let window @ [x, y, w, h] = self.window.unwrap_or([0, 0, width, height]);
        let inside = |from: usize, count: usize, side: usize| count > 0 && count <= side && from <= side - count;
        match inside(x, w, width) && inside(y, h, height) {
            true => Ok(window),
            false => Err(format!("--crop {x},{y},{w},{h} isn't a part of it: it has {width}×{height} pels")),
        }
    }
}

/// A picture in memory: 16 bits a pel, row by row.
#[derive(Clone, Debug, PartialEq, Eq)]
pub struct Frame {
    /// Where it is from, as a person reads it.
    pub name: String,
    /// Its pels across.
    pub width: usize,
    /// Its pels down.
    pub height: usize,
    /// The sides of the picture that it is a part of, or all.
    pub whole: (usize, usize),
    /// How many of the picture's pels, across and down, are one of its own.
    pub times: usize,
    /// The largest value that its file can hold.
    pub most: u16,
    /// Row by row.
    pub pels: Vec<u16>,
}

impl Frame {
    /// What the whole picture must have in common with another.
    pub fn looks(&self) -> Looks<'_> {
        Looks { name: &self.name, sides: self.whole, most: self.most }
    }
}

/// What gives a picture's rows, one after the other.
trait Rows {
    /// The brightness of the next row.
    fn row(&mut self, pels: &mut Vec<u16>) -> Result<(), String>;
    /// What comes behind the last row.
    fn end(&mut self) -> Result<(), String> {
        Ok(())
    }
}

/// What a picture's head says.
struct Head {
    width: usize,
    height: usize,
    most: u16,
    rows: Box<dyn Rows + Send>,
}

type Source = Box<dyn BufRead + Send>;

/// How values stand in a file, and how many a pel has: one, or three of red, green and blue.
#[derive(Clone, Copy, Debug, PartialEq, Eq)]
struct Layout {
    bytes: usize,
    low_first: bool,
    values: usize,
}

impl Layout {
    fn pel(self, bytes: &[u8]) -> u16 {
        let value = |bytes: &[u8]| match (self.bytes, self.low_first) {
            (1, _) => u16::from(bytes[0]),
            (_, true) => u16::from_le_bytes([bytes[0], bytes[1]]),
            (_, false) => u16::from_be_bytes([bytes[0], bytes[1]]),
        };
        if self.values < 3 { value(bytes) } else { luma([0, 1, 2].map(|i| value(&bytes[i * self.bytes..]))) }
    }

    fn pels(self, bytes: &[u8], pels: &mut Vec<u16>) {
        pels.clear();
        match self {
            // what most clips are
            Layout { bytes: 1, values: 1, .. } => pels.extend(bytes.iter().map(|&pel| u16::from(pel))),
            _ => pels.extend(bytes.chunks_exact(self.bytes * self.values).map(|pel| self.pel(pel))),
        }
    }
}

/// The brightness of a colour (ITU-R BT.601).
fn luma([red, green, blue]: [u16; 3]) -> u16 {
    ((299 * u32::from(red) + 587 * u32::from(green) + 114 * u32::from(blue) + 500) / 1000) as u16
}

/// Rows that stand in a file as they are.
struct Plain<S> {
    source: S,
    width: usize,
    height: usize,
    most: u16,
    layout: Layout,
    /// The bytes of the frame behind its brightness: a Y4M file's colours.
    behind: u64,
    /// The bytes of the frame that were there so far, and the rows.
    there: u64,
    row: usize,
    /// Those of the row.
    bytes: Vec<u8>,
}

impl<S: Read> Plain<S> {
    fn of(source: S, (width, height): (usize, usize), most: u16, layout: Layout, behind: u64) -> Plain<S> {
        Plain { source, width, height, most, layout, behind, there: 0, row: 0, bytes: Vec::new() }
    }

    /// The bytes of the whole frame.
    fn whole(&self) -> u64 {
        (self.width * self.height * self.layout.bytes * self.layout.values) as u64 + self.behind
    }

    /// Passes over the whole frame.
    fn pass(&mut self) -> Result<(), String> {
        let whole = self.whole();
        let got = skip(&mut self.source, whole).map_err(|error| error.to_string())?;
        self.count(got, whole)
    }

    /// Counts bytes of the frame, of which so many are wanted.
    fn count(&mut self, got: u64, wanted: u64) -> Result<(), String> {
        self.there += got;
        if got == wanted {
            return Ok(());
        }
        let (Plain { width, height, there, .. }, whole) = (&*self, self.whole());
        Err(format!("cut short: {width}×{height} pels take {whole} bytes, and {there} are there"))
    }
}

impl<S: Read> Rows for Plain<S> {
    fn row(&mut self, pels: &mut Vec<u16>) -> Result<(), String> {
        let wanted = (self.width * self.layout.bytes * self.layout.values) as u64;
        self.bytes.clear();
        let got = (&mut self.source).take(wanted).read_to_end(&mut self.bytes).map_err(|error| error.to_string())?;
        self.count(got as u64, wanted)?;
        // a colour's largest value is its own, not its brightness'
        Layout { values: 1, ..self.layout }.pels(&self.bytes, pels);
        if let Some(at) = pels.iter().position(|&value| value > self.most) {
            return Err(format!(
                "row {}, column {}: the pel is {}, over the {} that the head allows; are its bytes in the other order?",
                self.row,
                at / self.layout.values,
                pels[at],
                self.most
            ));
        }
        if self.layout.values > 1 {
            self.layout.pels(&self.bytes, pels);
        }
        self.row += 1;
        Ok(())
    }

    fn end(&mut self) -> Result<(), String> {
        let got = skip(&mut self.source, self.behind).map_err(|error| error.to_string())?;
        self.count(got, self.behind)
    }
}

/// A picture whose head is read and whose pels come next, or a clip.
pub struct Opened {
    /// As a person reads it.
    pub name: String,
    file: Kind,
}

enum Kind {
    Picture(Head),
    Clip(Clip),
}

/// The file and the frame in it that a place names: `clip.y4m#3` is frame 3, counted from 0, unless a file has that
/// whole name.
pub fn named(place: &Path) -> (&Path, u64) {
    let bytes = place.as_os_str().as_bytes();
    let at = bytes.iter().rposition(|&byte| byte == b'#').filter(|_| !place.exists());
    let number = at.and_then(|at| std::str::from_utf8(&bytes[at + 1..]).ok()?.parse().ok());
    match (at, number) {
        (Some(at), Some(number)) => (Path::new(OsStr::from_bytes(&bytes[..at])), number),
        _ => (place, 0),
    }
}

/// The pictures that a place names: a folder's by their names, else the place itself.
/// [`Unread`] where a folder can't be read or has no picture.
pub fn places(place: &Path) -> Result<Vec<PathBuf>, Unread> {
    if !place.is_dir() {
        return Ok(vec![place.to_path_buf()]);
    }
    let unreadable = |error: io::Error| Unread::of(shown(place), error);
    let mut files = Vec::new();
    for entry in fs::read_dir(place).map_err(unreadable)? {
        let path = entry.map_err(unreadable)?.path();
        let end = path.extension().map(OsStr::to_ascii_lowercase);
        let is_picture = end.is_some_and(|end| ["pgm", "ppm", "pnm", "png"].iter().any(|own| end == *own));
        if is_picture && !path.is_dir() {
            files.push(path);
        }
    }
    files.sort_by(|a, b| order::by_numbers(a.as_os_str().as_bytes(), b.as_os_str().as_bytes()));
    if files.is_empty() {
        return Err(Unread::of(shown(place), "a folder without a picture (.png, .pgm, .ppm)"));
    }
    Ok(files)
}

/// Opens a picture or a clip; `-` is standard input.
/// [`Unread`] where it can't be read or its head says nothing that can.
pub fn open(place: &Path) -> Result<Opened, Unread> {
    let name = shown(place);
    let (file, number) = named(place);
    let source: Source = if place == Path::new("-") {
        Box::new(BufReader::new(io::stdin()))
    } else {
        Box::new(BufReader::new(File::open(file).map_err(|error| Unread::of(&name, error))?))
    };
    let file = kind(source, number, place).map_err(|what| Unread::of(&name, what))?;
    Ok(Opened { name, file })
}

/// As many first bytes as tell every kind of file.
const MAGIC: u64 = 12;

/// What a file is; of a clip the frames before the one asked for, counted from 0, are passed over.
fn kind(mut source: Source, number: u64, place: &Path) -> Result<Kind, String> {
    // a pipe may give them one by one
    let mut begins = Vec::new();
    source.by_ref().take(MAGIC).read_to_end(&mut begins).map_err(|error| error.to_string())?;
    let source: Source = Box::new(Cursor::new(begins.clone()).chain(source));
    if begins.starts_with(y4m::MAGIC) {
        let mut clip = Clip::open(source)?;
        for before in 0..number {
            let passed = clip.next(None).ok_or_else(|| no_frame(before, number))?;
            passed.map_err(|what| format!("frame {before}: {what}"))?;
        }
        return if clip.is_ended() { Err(no_frame(number, number)) } else { Ok(Kind::Clip(clip)) };
    }
    let head = match &begins[..] {
        [b'P', b'5' | b'6', ..] => pnm::head(source)?,
        [0x89, b'P', b'N', b'G', ..] => png::head(source)?,
        begins => return Err(other(begins, place)),
    };
    match number {
        0 => Ok(Kind::Picture(head)),
        _ => Err("this file is one picture: only frames of Y4M have numbers".into()),
    }
}

fn no_frame(frames: u64, number: u64) -> String {
    format!("it has {frames} frames, so there is no frame {number} (the first is 0)")
}

/// What is said of a file that isn't read: what it is, and the command that makes a readable one of it.
fn other(begins: &[u8], place: &Path) -> String {
    const READ: &str = "it must be PNG, PGM (P5), PPM (P6) or Y4M";
    let (name, is_clip) = match begins {
        [] => return format!("it is empty; {READ}"),
        [0xFF, 0xD8, 0xFF, ..] => ("a JPEG picture", false),
        [b'I', b'I', 42, 0, ..] | [b'M', b'M', 0, 42, ..] => ("a TIFF picture", false),
        [b'B', b'M', ..] => ("a BMP picture", false),
        [b'G', b'I', b'F', b'8', ..] => ("a GIF picture", false),
        [b'R', b'I', b'F', b'F', .., b'W', b'E', b'B', b'P'] => ("a WebP picture", false),
        [b'P', b'1'..=b'4' | b'7', ..] => ("another kind of PNM picture", false),
        [b'R', b'I', b'F', b'F', .., b'A', b'V', b'I', b' '] => ("an AVI clip", true),
        [_, _, _, _, b'f', b't', b'y', b'p', ..] => ("an MP4 clip", true),
        [0x1A, 0x45, 0xDF, 0xA3, ..] => ("a Matroska or WebM clip", true),
        [b'O', b'g', b'g', b'S', ..] => ("an Ogg clip", true),
        [0, 0, 1, 0xBA | 0xB3, ..] => ("an MPEG clip", true),
        begins => {
            let digits: Vec<String> = begins.iter().take(4).map(|byte| format!("{byte:02X}")).collect();
            return format!("it begins with {}; {READ}", digits.join(" "));
        }
    };
    let text = place.to_string_lossy();
    let quoted = shell_words::quote(&text);
    let command = match is_clip {
        true => format!("ffmpeg -i {quoted} -pix_fmt gray -f yuv4mpegpipe - | belt track -"),
        false => format!("ffmpeg -i {quoted} -pix_fmt gray picture.png"),
    };
    format!("this is {name}; {READ}: {command}")
}

/// A side as a head says it.
fn side(text: &str, which: &str) -> Result<usize, String> {
    let number = text.bytes().all(|byte| byte.is_ascii_digit()) && !text.is_empty();
    match text.parse::<u64>() {
        _ if !number => Err(format!("the head has '{text}' where its {which} should be")),
        Ok(0) => Err(format!("the head says a {which} of 0: there is nothing to measure")),
        Ok(side) if side <= LONGEST_SIDE => Ok(side as usize),
        _ => Err(format!("the head says a {which} of {text}: no picture is so large")),
    }
}

/// Passes over so many bytes; how many there were.
fn skip(source: &mut impl Read, count: u64) -> io::Result<u64> {
    io::copy(&mut source.take(count), &mut io::sink())
}

/// What two pictures must have in common.
#[derive(Clone, Copy)]
pub struct Looks<'a> {
    name: &'a str,
    sides: (usize, usize),
    most: u16,
}

/// Two pictures must have the same sides and the same scale of brightness.
/// [`Unread`] of the second where they don't.
pub fn alike(first: Looks<'_>, second: Looks<'_>) -> Result<(), Unread> {
    let ((width, height), (own_width, own_height)) = (first.sides, second.sides);
    let (name, most) = (first.name, first.most);
    let what = if first.sides != second.sides {
        format!("it has {own_width}×{own_height} pels, and {name} {width}×{height}; both must have the same")
    } else if most != second.most {
        format!("its pels go up to {}, and those of {name} to {most}; both must have the same", second.most)
    } else {
        return Ok(());
    };
    Err(Unread::of(second.name, what))
}

impl Opened {
    /// What it must have in common with another.
    pub fn looks(&self) -> Looks<'_> {
        let most = match &self.file {
            Kind::Picture(head) => head.most,
            Kind::Clip(clip) => clip.most,
        };
        Looks { name: &self.name, sides: self.sides(), most }
    }

    /// The sides of the whole picture.
    pub fn sides(&self) -> (usize, usize) {
        match &self.file {
            Kind::Picture(head) => (head.width, head.height),
            Kind::Clip(clip) => (clip.width, clip.height),
        }
    }

    /// The frames a second, where it says them.
    pub fn rate(&self) -> Option<f64> {
        match &self.file {
            Kind::Picture(_) => None,
            Kind::Clip(clip) => clip.rate,
        }
    }

    /// Whether it is a clip.
    pub fn is_clip(&self) -> bool {
        matches!(self.file, Kind::Clip(_))
    }

    /// The clip that it is, from the frame on that its name has.
    pub fn into_clip(self) -> Option<Clip> {
        match self.file {
            Kind::Clip(clip) => Some(clip),
            Kind::Picture(_) => None,
        }
    }

    /// Reads the pels of a part, which must lie inside.
    /// [`Unread`] where they are cut short or damaged.
    pub fn read(self, part: Part) -> Result<Frame, Unread> {
        let name = self.name.clone();
        pels(self.file, part).map(|frame| Frame { name: self.name, ..frame }).map_err(|what| Unread::of(name, what))
    }
}

fn pels(file: Kind, part: Part) -> Result<Frame, String> {
    match file {
        Kind::Picture(Head { width, height, most, mut rows }) => read(&mut *rows, (width, height), most, part),
        Kind::Clip(mut clip) => {
            clip.next(Some(part)).ok_or_else(|| no_frame(0, 0))?.map(|frame| frame.expect("a part"))
        }
    }
}

/// Reads a part of a frame that has so many pels, by its rows.
fn read(rows: &mut dyn Rows, (width, height): (usize, usize), most: u16, part: Part) -> Result<Frame, String> {
    let [x, y, w, _] = part.inside((width, height))?;
    let (wide, high) = part.sides((width, height));
    let times = 1 << part.halvings;
    let mut pels = Vec::with_capacity((wide * high).min(MOST_AHEAD));
    let (mut row, mut sums) = (Vec::new(), vec![0u32; wide]);
    for number in 0..height {
        rows.row(&mut row)?;
        let Some(own) = number.checked_sub(y).filter(|own| *own < high * times) else { continue };
        if times == 1 {
            pels.extend_from_slice(&row[x..x + w]);
            continue;
        }
        for (sum, group) in sums.iter_mut().zip(row[x..x + w].chunks_exact(times)) {
            *sum += group.iter().map(|&pel| u32::from(pel)).sum::<u32>();
        }
        if own % times == times - 1 {
            // the mean, halves up
            let count = (times * times) as u32;
            pels.extend(sums.iter_mut().map(|sum| ((std::mem::take(sum) + count / 2) / count) as u16));
        }
    }
    rows.end()?;
    Ok(Frame { name: String::new(), width: wide, height: high, whole: (width, height), times, most, pels })
}

#[cfg(test)]
mod tests {
    use super::*;

    pub fn opened(bytes: &[u8], number: u64) -> Result<Kind, String> {
        kind(Box::new(Cursor::new(bytes.to_vec())), number, Path::new("x y.bin"))
    }

    /// A whole frame.
    pub fn first(bytes: &[u8], number: u64) -> Result<Frame, String> {
        pels(opened(bytes, number)?, Part::default())
    }

    fn read_part(bytes: &[u8], window: [usize; 4], halvings: u32) -> Result<Frame, String> {
        pels(opened(bytes, 0)?, Part { window: Some(window), halvings })
    }

    #[test]
    fn a_part_is_what_it_names() {
        let picture = b"P5 4 3 255\nabcdefghijkl";
        let frame = read_part(picture, [1, 1, 2, 2], 0).unwrap();
        assert_eq!((frame.width, frame.height, &frame.pels[..]), (2, 2, &[b'f', b'g', b'j', b'k'].map(u16::from)[..]));
        let half = read_part(b"P5 5 3 255\n\x00\x01\x05\x06\xFF\x02\x03\x07\x08\xFFxxxxx", [0, 0, 5, 3], 1).unwrap();
        assert_eq!((half.width, half.height, half.times, &half.pels[..]), (2, 1, 2, &[2, 7][..]));
        for [x, y, w, h] in [[3, 0, 2, 1], [0, 3, 1, 1], [0, 0, 0, 1], [usize::MAX, 0, 2, 1], [4, 0, 1, 1]] {
            let said = read_part(picture, [x, y, w, h], 0).unwrap_err();
            assert_eq!(said, format!("--crop {x},{y},{w},{h} isn't a part of it: it has 4×3 pels"));
        }
        let said = "cut short: 4×3 pels take 12 bytes, and 11 are there";
        assert_eq!(read_part(b"P5 4 3 255\nabcdefghijk", [0, 0, 1, 1], 0).unwrap_err(), said);
        let said = "cut short: 60000×60000 pels take 7200000000 bytes, and 3 are there";
        assert_eq!(first(b"P5 60000 60000 65535\nabc", 0).unwrap_err(), said);
    }

    #[test]
    fn colours_become_brightness() {
        let frame = first(b"P6 2 1 255\n\xFF\xFF\xFF\xFF\0\0", 0).unwrap();
        assert_eq!(frame.pels, [255, 76]);
        let deep = first(b"P6 1 1 1000\n\0\x0A\x03\xE8\0\x14", 0).unwrap();
        assert_eq!((deep.most, &deep.pels[..]), (1000, &[592][..]));
        let said = first(b"P6 1 1 1000\n\0\x0A\x03\xE9\0\x14", 0).unwrap_err();
        assert!(said.starts_with("row 0, column 0: the pel is 1001, over the 1000"), "{said}");
    }

    #[test]
    fn a_place_is_a_file_and_a_frame() {
        assert_eq!(named(Path::new("a#b.y4m#12")), (Path::new("a#b.y4m"), 12));
        assert_eq!(named(Path::new("a.y4m#x")), (Path::new("a.y4m#x"), 0));
        let odd = OsStr::from_bytes(b"\xFF.y4m#1");
        assert_eq!(named(Path::new(odd)), (Path::new(OsStr::from_bytes(b"\xFF.y4m")), 1));
    }

    #[test]
    fn other_files_are_called_by_their_name_with_what_helps() {
        let said = |bytes: &[u8]| opened(bytes, 0).map(|_| ()).unwrap_err();
        assert_eq!(said(b""), "it is empty; it must be PNG, PGM (P5), PPM (P6) or Y4M");
        assert_eq!(said(b"\x00\x01"), "it begins with 00 01; it must be PNG, PGM (P5), PPM (P6) or Y4M");
        assert!(said(b"\xFF\xD8\xFF\xE0").ends_with(": ffmpeg -i 'x y.bin' -pix_fmt gray picture.png"));
        assert!(said(b"RIFF....AVI LIST").starts_with("this is an AVI clip; "));
        assert!(
            said(b"\0\0\0\x20ftypisom").contains("an MP4 clip") && said(b"RIFF....WEBP").contains("a WebP picture")
        );
        assert!(said(b"MM\0*").contains("a TIFF picture") && said(b"P2 1 1 1 1").contains("another kind of PNM"));
        let said = opened(b"P5 1 1 255\nx", 1).map(|_| ()).unwrap_err();
        assert_eq!(said, "this file is one picture: only frames of Y4M have numbers");
    }
}
