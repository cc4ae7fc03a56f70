//! The words of a command line, what the help says of each, and the manual page.

use crate::failure::Failure;
use crate::output;
use clap::{Args, CommandFactory, Parser, Subcommand, ValueEnum};
use clap_complete::Shell;
use frames::Part;
use std::ffi::OsString;
use std::fmt::Write;
use std::path::PathBuf;
use std::str::FromStr;

const STATUS: &str = "Exit status:
  0  It is done. A warning doesn't change that.
  1  The library refuses; its number and its text are on standard error. No file is written.
  2  A file or a word is bad, or can't be read or written, or memory ran out; standard error has one line that says \
what and where. No file is written, not even a part of one.
  3  With 'belt track --strict': all is done and written, but a pair is warned of, unexplained or bad.";

/// The motion core from a command line
///
/// belt measures how a load moved between two camera frames, and reads what the motion core stores: sample blocks and AV1
/// global-motion headers. The numbers come from the proved library; this tool reads the files, asks it, and says the
/// answer in words, as JSON or as a picture.
///
/// Pictures are PNG, PGM and PPM files of 8 or 16 bits, or single frames of Y4M files, known by their content; of colours
/// the brightness is taken. A pel is one brightness value. A side has at most 1,024 pels: --crop measures a part of a
/// larger picture, --halve all of it at half its size.
///
/// Begin with 'belt demo', or with two frames: 'belt measure a.png b.png --picture seen.png'.
#[derive(Debug, Parser)]
#[command(name = "belt", version, after_long_help = STATUS, max_term_width = 100,
          arg_required_else_help = false)]
pub struct Cli {
    #[command(subcommand)]
    pub command: Command,
}

#[derive(Debug, Subcommand)]
pub enum Command {
    /// How the load moved between two pictures
    ///
    /// Finds the motion of each 16×16 block, and says where the load went from the first picture to the second: shift in
    /// pels, zoom, angle, and how many blocks agree of those that can tell their motion. What was measured is the motion
    /// that most of them share, whatever the light does; what is stored is the header's model, on its grid, as the library
    /// elects it among the same blocks. The status is measured, still, unexplained (no motion is to be trusted; the
    /// warnings say why, and what to do), flat or no-blocks; only what is measured or still has numbers.
    ///
    /// How it was found is elected, robust (by the blocks that can tell), half-size (at half the size) or shifted (the
    /// second picture moved first: up to about 110 pels), and plain or trimmed with --type.
    ///
    /// With more than two pictures each is measured against the next, one line for each pair. A folder stands for its
    /// pictures by name, img2 before img10. clip.y4m#3 is frame 3 of a Y4M file, counted from 0; - is standard input, and
    /// of an output standard output.
    #[command(after_long_help = "Examples:
  belt measure a.png b.png --picture seen.png
  belt measure frames/ --json
  belt measure clip.y4m#0 clip.y4m#1 --type affine --crop 0,0,1024,512")]
    Measure(Measure),
    /// How the load moved through a clip, from each frame to the next
    ///
    /// Measures each frame of a clip against the next, as 'belt measure' does, and says a line for each pair: where the load
    /// went, with its speed where rate or scale are known. At the end: pairs by their status, the speed in the median and
    /// from 5 to 95 %, the path, and the pair that is worst. A frame that is cut or damaged makes its pairs bad, with the
    /// reason, and the clip goes on; a load that stood still has the speed 0.
    ///
    /// The clip is a Y4M file, or a pipe (-), a folder of pictures by name, or pictures one by one; each frame is read once.
    /// Frames are counted from 0 over all of it. Time is that of a pair's second frame. The table has a column for each
    /// name that the JSON has; a speed's direction is 0 degrees to the right and 90 down.
    #[command(after_long_help = "Examples:
  ffmpeg -i clip.mp4 -pix_fmt gray -f yuv4mpegpipe - | belt track - --csv out.csv --plot out.svg --mm-per-pel 0.4
  belt track frames/ --fps 50 --crop 0,120,640,240 --json
  belt track clip.y4m --from 100 --to 200 --strict --quiet
  belt track clip.y4m --blocks clip.blocks --headers clip.headers --key 250")]
    Track(Track),
    /// A recording of 'belt track', read back
    ///
    /// Reads the file of headers that 'belt track --headers' wrote, and with --blocks the samples too, and says for each
    /// frame what was stored: key frame or pair, the pair's frames in the clip, its status, the model, the bits. Each
    /// model is written again and must give the same header, each frame's samples the same blocks. The first that
    /// is damaged, cut or doesn't belong to the other file is named with its byte, and ends it.
    #[command(after_long_help = "Examples:
  belt replay clip.headers --blocks clip.blocks
  belt replay clip.headers --json")]
    Replay {
        /// The headers; - is standard input
        headers: PathBuf,
        /// The sample blocks of the same recording; - is standard input
        #[arg(long, value_name = "FILE")]
        blocks: Option<PathBuf>,
        /// One JSON object in one line for each record, for programs
        #[arg(long)]
        json: bool,
    },
    /// A short clip of a belt, drawn, measured and told
    ///
    /// Draws a belt that pans and creeps, with a piece that rolls on its own and film that flutters, measures each pair of
    /// frames, and leaves in the folder the clip (clip.y4m), a table (motion.csv) with what was drawn beside what was
    /// found, a plot (motion.svg) and a picture (measured.png).
    Demo {
        /// Where the files are left; it is made if it isn't there
        #[arg(default_value = "belt-demo")]
        folder: PathBuf,
    },
    /// The samples in a file of blocks
    ///
    /// Prints each block of 512 bytes: a line with frame number, place in the frame and count, then a line for each sample
    /// with block row, block column, motion down and right in eighths of a pel, and class. A block that is refused prints
    /// its number, and standard error names the first.
    List {
        /// The blocks; - is standard input
        file: PathBuf,
        /// A table with commas: frame, row, column, centre and motion in pels, and the class in words
        #[arg(long)]
        csv: bool,
    },
    /// A file of blocks in the other form
    ///
    /// Form 2 holds 100 samples a block and every class; form 1, the older, 125 samples and no film. Every frame in the
    /// file is converted; nothing is written if one is refused.
    Convert {
        /// The blocks; - is standard input
        file: PathBuf,
        /// Where they are written; - is standard output
        out: PathBuf,
        /// The form to write
        #[arg(long, value_name = "FORM", default_value = "2", value_parser = ["1", "2"])]
        to: String,
    },
    /// The seven models that a header carries
    ///
    /// Reads the global motion of references 1 to 7 as the AV1 standard says, and how many bits it took.
    #[command(after_long_help = "Examples:
  belt read-header seen.header
  echo A4 20 00 | belt read-header - --hex")]
    ReadHeader {
        /// The header's bytes; - is standard input
        file: PathBuf,
        /// The bit of the file at which the models begin, counted from 0
        #[arg(long, value_name = "BIT", default_value_t = 0)]
        at: usize,
        /// The file has hexadecimal digits, not bytes
        #[arg(long)]
        hex: bool,
        #[command(flatten)]
        header: Header,
        /// The frame is a key frame: no bits, seven identities
        #[arg(long)]
        key: bool,
        /// One JSON object in one line, for programs
        #[arg(long)]
        json: bool,
    },
    /// A belt to practise on: two pictures with a known motion
    ///
    /// Writes two PGM files of 16 bits: a reference of noise, the same on every machine for a seed, and an input that is
    /// the reference moved. The search begins on halved pictures: on such noise it finds every block of an even shift,
    /// about nine in ten where the shift is odd one way, and about a quarter where it is odd both ways. A loaded belt has
    /// shapes, and is found at every shift.
    Practice {
        /// Where the input is written
        input: PathBuf,
        /// Where the reference is written
        reference: PathBuf,
        /// The pictures' sides in pels
        #[arg(long, value_name = "WxH", default_value = "640x480", value_parser = numbers::<usize, 2, 'x'>)]
        size: [usize; 2],
        /// The motion from the input to the reference in whole pels, at most 24 either way
        #[arg(long, value_name = "RIGHT,DOWN", default_value = "6,-4", value_parser = numbers::<i32, 2, ','>,
              allow_hyphen_values = true)]
        shift: [i32; 2],
        /// The noise
        #[arg(long, value_name = "N", default_value_t = 1)]
        seed: u32,
    },
    /// How many bits a header takes, without writing it
    ///
    /// Of a file of models, as 'belt measure --models' writes it: the bits of the frame's header. Without a file: how many
    /// of a slot's numbers cost 4 bits, 5 bits and so on, for --type and --slot; they are the same about every prior.
    Price {
        /// The models; - is standard input
        #[arg(conflicts_with_all = ["gm_type", "slot"])]
        file: Option<PathBuf>,
        /// The type
        #[arg(long = "type", id = "gm_type", value_name = "TYPE", required_unless_present = "file",
              conflicts_with_all = ["prior", "key"])]
        gm_type: Option<Type>,
        /// 0 and 1 the shift, 2 to 5 zoom, turn and shear
        #[arg(long, value_name = "N", default_value_t = 0)]
        slot: u8,
        #[command(flatten)]
        header: Header,
        /// The frame is a key frame
        #[arg(long)]
        key: bool,
        /// One JSON object in one line, for programs
        #[arg(long)]
        json: bool,
    },
    /// The manual page, for man: 'belt man | man -l -'
    Man,
    /// What a shell is to complete, for the shell named
    Completions { shell: Shell },
}

/// What a header is read and written with.
#[derive(Args, Debug)]
pub struct Header {
    /// A translation in steps of an eighth of a pel, or of a quarter
    #[arg(long, value_name = "P", default_value = "high")]
    pub precision: Precision,
    /// The models before this frame, seven lines as --models writes them; seven identities if it isn't given
    #[arg(long, value_name = "FILE")]
    pub prior: Option<PathBuf>,
}

/// What is seen of the pictures, and how closely.
#[derive(Args, Debug)]
pub struct Seen {
    /// Measure only this part of the pictures, in pels: W wide and H high, from column X and row Y on
    #[arg(long, value_name = "X,Y,W,H", value_parser = numbers::<usize, 4, ','>, allow_hyphen_values = true)]
    pub crop: Option<[usize; 4]>,
    /// Measure the pictures at half their sides, or halved N times; the motion is said in pels of the original, blocks and
    /// header are of the halved pictures
    #[arg(long, value_name = "N", num_args = 0..=1, require_equals = true, default_missing_value = "1",
          value_parser = clap::value_parser!(u32).range(1..=6))]
    pub halve: Option<u32>,
    /// A picture of the same sides: blocks with a pel of it that isn't black are left out of what is measured
    #[arg(long, value_name = "FILE")]
    pub mask: Option<PathBuf>,
    /// One search, neither the way back nor coarser pictures: faster, and more is unexplained
    #[arg(long)]
    pub fast: bool,
}

impl Seen {
    /// The part that is measured.
    pub fn part(&self) -> Part {
        Part { window: self.crop, halvings: self.halve.unwrap_or(0) }
    }
}

#[derive(Args, Debug)]
pub struct Track {
    /// A Y4M clip, pictures, or folders of them; - is standard input
    #[arg(required = true, value_name = "CLIP")]
    pub places: Vec<PathBuf>,
    #[command(flatten)]
    pub seen: Seen,
    /// The first frame that is taken, counted from 0
    #[arg(long, value_name = "N", default_value_t = 0)]
    pub from: u64,
    /// The last frame that is taken; all if it isn't given
    #[arg(long, value_name = "N")]
    pub to: Option<u64>,
    /// Take one frame of N: of a load that creeps, frames further apart
    #[arg(long, value_name = "N", default_value_t = 1, value_parser = clap::value_parser!(u64).range(1..))]
    pub every: u64,
    /// The frames a second; if it isn't given, what the clip says
    #[arg(long, value_name = "RATE", value_parser = above_0)]
    pub fps: Option<f64>,
    /// The millimetres of the belt that a pel shows: speeds and lengths are then in millimetres
    #[arg(long, value_name = "MM", value_parser = above_0)]
    pub mm_per_pel: Option<f64>,
    /// How many pairs are measured at once; as many as there are processors if it isn't given
    #[arg(long, value_name = "N", value_parser = clap::value_parser!(u16).range(1..=256))]
    pub threads: Option<u16>,
    /// A table with a row for each pair
    #[arg(long, value_name = "FILE")]
    pub csv: Option<PathBuf>,
    /// A plot of speed and path over time, as SVG
    #[arg(long, value_name = "FILE")]
    pub plot: Option<PathBuf>,
    /// Store the samples of each pair as blocks of 512 bytes; their frame numbers go from 1 to 65535 and begin again
    #[arg(long, value_name = "FILE")]
    pub blocks: Option<PathBuf>,
    /// Store the elected model of each pair as a header of a run of frames, which takes its prior from the pair before; a
    /// bad pair is stored as such. 'belt replay' reads it
    #[arg(long, value_name = "FILE")]
    pub headers: Option<PathBuf>,
    /// A key frame ahead of every N pairs sets the prior back, so that headers can be read from there on; 0: ahead of the
    /// first pair alone
    #[arg(long, value_name = "N", default_value_t = 0, requires = "headers")]
    pub key: u64,
    /// One JSON object in one line for each pair, for programs, in the place of words
    #[arg(long)]
    pub json: bool,
    /// No line for each pair and no progress, but the summary
    #[arg(long)]
    pub quiet: bool,
    /// End with status 3 where a pair is warned of, unexplained or bad
    #[arg(long)]
    pub strict: bool,
}

#[derive(Args, Debug)]
pub struct Measure {
    /// Pictures, or folders of them
    #[arg(required = true, value_name = "PICTURE")]
    pub places: Vec<PathBuf>,
    /// The model that is fitted and stored; it counts if half of the blocks agree. If it isn't given, what is measured is
    /// what most blocks share, and what is stored is elected: the first that explains three quarters of the motion, or a
    /// later one that is clearly better
    #[arg(long = "type", value_name = "TYPE")]
    pub gm_type: Option<Type>,
    /// Fit again without the blocks that lie far off the first fit, so that a piece that rolls on its own doesn't pull the
    /// model; it takes 4 blocks for a translation, 6 for a rotzoom, 8 for an affine model. An elected type is always
    /// fitted so
    #[arg(long)]
    pub trim: bool,
    #[command(flatten)]
    pub seen: Seen,
    /// A block agrees with the model of --type within this distance, in pels of what is measured
    #[arg(long, value_name = "PELS", default_value_t = 0.25, value_parser = distance, requires = "gm_type")]
    pub within: f64,
    /// A class for each block, row by row: unsorted, fibre, rigid-plastic, metal, film, or 0 to 4; all are unsorted if it
    /// isn't given
    #[arg(long, value_name = "FILE")]
    pub classes: Option<PathBuf>,
    /// Measure, fit and score the blocks of these classes alone, by names or numbers with commas between them; the others
    /// are stored all the same
    #[arg(long, value_name = "LIST", requires = "classes")]
    pub set: Option<String>,
    /// The frame's number, 1 to 65535, which its blocks carry; of more pictures, that of the first pair
    #[arg(long, value_name = "N", default_value_t = 1)]
    pub frame: u16,
    /// The reference that the model is stored for, 1 to 7
    #[arg(long, value_name = "N", default_value_t = 1)]
    pub reference: u8,
    /// The bit of its first byte at which the header begins, 0 to 7
    #[arg(long, value_name = "BIT", default_value_t = 0)]
    pub start: usize,
    #[command(flatten)]
    pub header: Header,
    /// How many threads share the search of a pair; as many as there are processors if it isn't given
    #[arg(long, value_name = "N", value_parser = clap::value_parser!(u16).range(1..=256))]
    pub threads: Option<u16>,
    /// One JSON object in one line for each pair, for programs
    #[arg(long)]
    pub json: bool,
    /// Draw the first picture with an arrow for each block, coloured by agreement; the name ends in .svg or .png (and - is
    /// a PNG). May be given for each
    #[arg(long, value_name = "FILE")]
    pub picture: Vec<PathBuf>,
    /// Store the samples as blocks of 512 bytes, of all pairs one after the other
    #[arg(long, value_name = "FILE")]
    pub blocks: Option<PathBuf>,
    /// Store the header's bytes
    #[arg(long = "header", id = "header_file", value_name = "FILE")]
    pub header_file: Option<PathBuf>,
    /// Store the seven models as text; a next measurement takes them with --prior
    #[arg(long, value_name = "FILE")]
    pub models: Option<PathBuf>,
}

/// A model's type by its name; their codes are 1 to 3.
#[derive(Clone, Copy, Debug, PartialEq, Eq, ValueEnum)]
pub enum Type {
    Translation = 1,
    /// Shift, zoom and angle
    Rotzoom,
    Affine,
}

/// A header's precision; its flags are 0 and 1.
#[derive(Clone, Copy, Debug, PartialEq, Eq, ValueEnum)]
pub enum Precision {
    Low,
    High,
}

/// So many numbers with a sign between them.
fn numbers<T: FromStr, const N: usize, const BETWEEN: char>(text: &str) -> Result<[T; N], String> {
    let parts: Option<Vec<T>> = text.split(BETWEEN).map(|part| part.trim().parse().ok()).collect();
    let what = || format!("it isn't {N} whole numbers with '{BETWEEN}' between them");
    parts.and_then(|parts| <[T; N]>::try_from(parts).ok()).ok_or_else(what)
}

fn above_0(text: &str) -> Result<f64, String> {
    let number = text.parse().ok().filter(|number: &f64| *number > 0.0 && number.is_finite());
    number.ok_or_else(|| "it isn't a number above 0".into())
}

fn distance(text: &str) -> Result<f64, String> {
    let pels = text.parse().ok().filter(|pels: &f64| *pels >= 0.0 && pels.is_finite());
    pels.ok_or_else(|| "it isn't a number of pels".into())
}

/// The words that are given; help and version are printed here.
pub fn parse(mut words: Vec<OsString>) -> Result<Option<Command>, Failure> {
    // a number behind --halve belongs to it; clap alone would take a picture for the number
    let number = |word: &OsString| word.to_str().is_some_and(|text| text.parse::<u32>().is_ok());
    if let Some(at) = words.windows(2).position(|pair| pair[0] == "--halve" && number(&pair[1])) {
        let number = words.remove(at + 1);
        words[at].push("=");
        words[at].push(number);
    }
    match Cli::try_parse_from(words) {
        Ok(cli) => Ok(Some(cli.command)),
        Err(error) if error.use_stderr() => Err(Failure::words(&error.to_string())),
        Err(help) => output::print(&help.to_string()).map(|()| None),
    }
}

/// A text for roff: no letter of it is a command.
fn roff(text: &str) -> String {
    let text = text.replace('\\', "\\e").replace('-', "\\-").replace('\'', "\\(aq");
    if text.starts_with('.') { format!("\\&{text}") } else { text }
}

/// Paragraphs and rows of a help text.
fn paragraphs(text: &str) -> String {
    let paragraph = |text: &str| format!(".PP\n{}\n", text.lines().map(roff).collect::<Vec<_>>().join("\n.br\n"));
    text.split("\n\n").map(paragraph).collect()
}

/// The manual page.
pub fn manual() -> String {
    let mut page = format!(".TH BELT 1 \"\" \"belt {}\"\n.SH NAME\nbelt \\- ", env!("CARGO_PKG_VERSION"));
    let mut tool = Cli::command();
    tool.build();
    let text = |styled: Option<&clap::builder::StyledStr>| styled.map(ToString::to_string).unwrap_or_default();
    page += &format!("{}\n.SH DESCRIPTION\n", roff(&text(tool.get_about()).to_lowercase()));
    page += &paragraphs(&text(tool.get_long_about()));
    page += ".SH COMMANDS\n";
    for command in tool.get_subcommands().filter(|command| command.get_name() != "help") {
        let name = command.get_name();
        let places: Vec<String> = command.get_positionals().map(|place| format!(" {place}")).collect();
        let _ = writeln!(page, ".SS {}", roff(&format!("belt {name}{} [OPTIONS]", places.concat())));
        page += &paragraphs(&text(command.get_long_about().or(command.get_about())));
        for argument in command.get_arguments().filter(|argument| argument.get_id() != "help") {
            let first = argument.get_default_values().first().filter(|_| argument.get_action().takes_values());
            let default = first.map(|value| format!(" [default: {}]", value.to_string_lossy())).unwrap_or_default();
            let names: Vec<String> = argument.get_possible_values().iter().map(|v| v.get_name().into()).collect();
            let names = match argument.get_action().takes_values() && !names.is_empty() {
                true => format!(" [{}]", names.join(", ")),
                false => String::new(),
            };
            let said = text(argument.get_help());
            let _ = writeln!(page, ".TP\n.B {}\n{}", roff(&argument.to_string()), roff(&(said + &names + &default)));
        }
        page += &paragraphs(&text(command.get_after_long_help()));
    }
    page + ".SH \"EXIT STATUS\"\n" + &paragraphs(STATUS)
}

/// What a shell completes.
pub fn completions(shell: Shell) -> String {
    let mut text = Vec::new();
    clap_complete::generate(shell, &mut Cli::command(), "belt", &mut text);
    String::from_utf8_lossy(&text).into_owned()
}

#[cfg(test)]
mod tests {
    use super::*;

    fn measure(words: &[&str]) -> Measure {
        let words = ["belt", "measure"].iter().chain(words).map(OsString::from).collect();
        match parse(words).unwrap() {
            Some(Command::Measure(measure)) => measure,
            other => panic!("{other:?}"),
        }
    }

    #[test]
    fn the_words_are_consistent() {
        Cli::command().debug_assert();
    }

    #[test]
    fn a_number_behind_halve_is_its_own() {
        assert_eq!(measure(&["--halve", "a", "b"]).seen.halve, Some(1));
        assert_eq!(measure(&["a", "b", "--halve"]).seen.halve, Some(1));
        let three = measure(&["--halve", "3", "a", "b"]);
        assert_eq!((three.seen.halve, three.places.len()), (Some(3), 2));
        assert_eq!(measure(&["a", "b"]).seen.halve, None);
    }

    #[test]
    fn the_manual_page_is_this_text() {
        assert_eq!(roff(".x -y 'z'"), "\\&.x \\-y \\(aqz\\(aq");
        assert!(manual() == include_str!("../belt.1"), "belt.1 is older: belt man > tools/belt/belt.1");
    }
}
