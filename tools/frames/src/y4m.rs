//! Y4M files: of each frame the brightness comes first, its colours behind.

use super::{Frame, LONGEST_HEAD, Layout, Part, Plain, Source, read, side, skip};
use std::io::{BufRead, Read};

pub const MAGIC: &[u8] = b"YUV4MPEG2";

/// The next line, without its end.
fn line(source: &mut impl BufRead) -> Result<String, String> {
    let mut line = Vec::new();
    source.take(LONGEST_HEAD as u64).read_until(b'\n', &mut line).map_err(|error| error.to_string())?;
    match line.pop() {
        Some(b'\n') => Ok(String::from_utf8_lossy(&line).into_owned()),
        _ => Err("cut short: it ends inside a head".into()),
    }
}

/// The depth of a pel in bits, and the values of colour in a frame, for a colour space by its name.
fn colours(space: &str, width: u64, height: u64) -> Option<(u32, u64)> {
    let digits = space.find(|c: char| !c.is_ascii_digit()).unwrap_or(space.len());
    let (layout, rest) = match space.strip_prefix("mono") {
        Some(depth) => ("mono", depth),
        None => space.split_at(digits),
    };
    let depth = match rest {
        "" | "jpeg" | "mpeg2" | "paldv" | "alpha" => 8,
        depth => depth.strip_prefix('p').unwrap_or(depth).parse().ok().filter(|depth| (9..=16).contains(depth))?,
    };
    let values = match layout {
        "mono" => 0,
        "420" => 2 * width.div_ceil(2) * height.div_ceil(2),
        "422" => 2 * width.div_ceil(2) * height,
        "411" => 2 * width.div_ceil(4) * height,
        "444" if rest == "alpha" => 3 * width * height,
        "444" => 2 * width * height,
        _ => return None,
    };
    Some((depth, values))
}

/// A clip whose head is read: its frames come next, each once.
pub struct Clip {
    source: Source,
    /// The sides of a frame.
    pub(crate) width: usize,
    pub(crate) height: usize,
    /// The largest value that a pel can have.
    pub(crate) most: u16,
    /// The frames a second, where the head says them.
    pub rate: Option<f64>,
    /// The bytes of the head.
    pub head: u64,
    layout: Layout,
    /// The bytes of a frame behind its brightness.
    behind: u64,
    /// So many frames come first that can't be read, and why.
    lost: (u64, &'static str),
    /// What comes behind them.
    ahead: Ahead,
}

/// What comes next in a clip.
#[derive(Clone, Copy, Debug, PartialEq, Eq)]
enum Ahead {
    Unknown,
    /// The pels of a frame, whose head was read.
    Frame,
    End,
}

/// The line that begins a frame.
const FRAME: &[u8] = b"FRAME";

/// Whether a line begins a frame.
fn begins(line: &[u8]) -> bool {
    line.strip_prefix(FRAME).is_some_and(|rest| rest.is_empty() || rest[0] == b' ')
}

/// Frames a second as a head says them.
fn rate(text: &str) -> Option<f64> {
    let (frames, seconds) = text.split_once(':')?;
    let rate = frames.parse::<u32>().ok()? as f64 / seconds.parse::<u32>().ok()? as f64;
    (rate.is_finite() && rate > 0.0).then_some(rate)
}

impl Clip {
    /// Reads the head.
    pub fn open(mut source: Source) -> Result<Clip, String> {
        let text = line(&mut source)?;
        let field = |letter: char| text.split(' ').skip(1).find_map(|word| word.strip_prefix(letter));
        let width = side(field('W').ok_or("its head has no width (W)")?, "width")?;
        let height = side(field('H').ok_or("its head has no height (H)")?, "height")?;
        if let Some(order @ ("t" | "b" | "m")) = field('I') {
            return Err(format!(
                "it is interlaced (I{order}): the two halves of a frame were taken one after the other"
            ));
        }
        let space = field('C').unwrap_or("420");
        let known = colours(space, width as u64, height as u64);
        let (depth, values) = known.ok_or(format!("its colour space C{space} isn't known"))?;
        let layout = Layout { bytes: if depth > 8 { 2 } else { 1 }, low_first: true, values: 1 };
        Ok(Clip {
            source,
            width,
            height,
            most: (u32::MAX >> (32 - depth)) as u16,
            rate: field('F').and_then(rate),
            head: text.len() as u64 + 1,
            layout,
            behind: values * layout.bytes as u64,
            lost: (0, ""),
            ahead: Ahead::Unknown,
        })
    }

    /// The bytes of a frame behind its head.
    pub fn size(&self) -> u64 {
        (self.width * self.height * self.layout.bytes) as u64 + self.behind
    }

    /// The next frame, or a part of it; none is passed over. Nothing at the end. One that can't be read is told, and the
    /// clip goes on behind it.
    pub fn next(&mut self, part: Option<Part>) -> Option<Result<Option<Frame>, String>> {
        if self.is_ended() {
            return None;
        }
        if self.lost.0 > 0 {
            self.lost.0 -= 1;
            return Some(Err(self.lost.1.into()));
        }
        let read = self.frame(part);
        // a frame is whole if the next begins behind it
        let followed = self.look();
        Some(read.and_then(|frame| followed.map(|()| frame)))
    }

    /// Whether no frame comes any more.
    pub fn is_ended(&mut self) -> bool {
        if self.ahead == Ahead::Unknown && self.look().is_err() {
            self.lost.0 = self.lost.0.max(1);
        }
        self.lost.0 == 0 && self.ahead == Ahead::End
    }

    /// Reads a frame to its end, or to the file's.
    fn frame(&mut self, part: Option<Part>) -> Result<Option<Frame>, String> {
        let size = self.size();
        let mut source = (&mut self.source).take(size);
        let mut rows = Plain::of(&mut source, (self.width, self.height), self.most, self.layout, self.behind);
        let frame = match part {
            Some(part) => read(&mut rows, (self.width, self.height), self.most, part).map(Some),
            None => rows.pass().map(|()| None),
        };
        skip(&mut source, size).map_err(|error| error.to_string())?;
        frame
    }

    /// The next line, with its end if it has one.
    fn line(&mut self) -> Result<Vec<u8>, String> {
        let mut line = Vec::new();
        let read = (&mut self.source).take(LONGEST_HEAD as u64).read_until(b'\n', &mut line);
        read.map_err(|error| error.to_string()).map(|_| line)
    }

    /// Looks at what comes next: the head of a frame, or the end. Anything else is a failure of the frame before.
    fn look(&mut self) -> Result<(), String> {
        let line = self.line()?;
        let text = line.strip_suffix(b"\n").unwrap_or(&line);
        let is_whole = text.len() < line.len();
        self.ahead = if is_whole && begins(text) { Ahead::Frame } else { Ahead::End };
        if !line.is_empty() && !is_whole && (begins(text) || FRAME.starts_with(text)) {
            self.lost = (1, "cut short: it ends inside a head");
        } else if !line.is_empty() && self.ahead == Ahead::End {
            self.find(line)?;
            return Err("it doesn't end where the next frame should begin: bytes of it are missing, or too many".into());
        }
        Ok(())
    }

    /// Looks for a frame's head behind what should have been one, and counts the frames between.
    fn find(&mut self, mut line: Vec<u8>) -> Result<(), String> {
        let mut passed = 0;
        while !line.is_empty() && self.ahead != Ahead::Frame {
            let text = line.strip_suffix(b"\n").unwrap_or(&line);
            // it stands right behind pels
            let head = text.windows(FRAME.len()).rposition(|bytes| bytes == FRAME).filter(|at| begins(&text[*at..]));
            let head = head.filter(|_| text.len() < line.len());
            passed += head.unwrap_or(line.len()) as u64;
            match head {
                Some(_) => self.ahead = Ahead::Frame,
                None => line = self.line()?,
            }
        }
        let whole = self.size() + FRAME.len() as u64 + 1;
        self.lost = ((passed + whole / 2) / whole, "it doesn't begin with 'FRAME'");
        Ok(())
    }
}

#[cfg(test)]
mod tests {
    use super::super::tests::{first, opened};
    use super::*;
    use std::io::Cursor;

    fn clip(bytes: &[u8]) -> Result<Clip, String> {
        Clip::open(Box::new(Cursor::new(bytes.to_vec())))
    }

    /// The first pel of each frame, or what is said of it.
    fn firsts(bytes: &[u8]) -> Vec<Result<u16, String>> {
        let mut clip = clip(bytes).unwrap();
        let next = || clip.next(Some(Part::default())).map(|frame| frame.map(|frame| frame.unwrap().pels[0]));
        std::iter::from_fn(next).collect()
    }

    #[test]
    fn frames_are_counted_from_0() {
        let clip = b"YUV4MPEG2 W2 H2 F25:1 Ip A1:1 Cmono\nFRAME\nabcdFRAME Ip\nefgh";
        assert_eq!(firsts(clip), [Ok(97), Ok(101)]);
        for (number, first_pel) in [(0, b'a'), (1, b'e')] {
            let frame = first(clip, number).unwrap();
            assert_eq!((frame.width, frame.height, frame.most), (2, 2, 255));
            assert_eq!(frame.pels[0], u16::from(first_pel));
        }
        let said = opened(clip, 2).map(|_| ()).unwrap_err();
        assert_eq!(said, "it has 2 frames, so there is no frame 2 (the first is 0)");
    }

    #[test]
    fn a_damaged_frame_does_not_end_the_clip() {
        const LATE: &str = "it doesn't end where the next frame should begin: bytes of it are missing, or too many";
        const NONE: &str = "it doesn't begin with 'FRAME'";
        let bad = |what: &str| Err(what.to_string());
        let frame = |pel: u8| [b"FRAME\n".to_vec(), vec![pel; 100]].concat();
        let clip = |frames: &[Vec<u8>]| firsts(&[b"YUV4MPEG2 W10 H10 Cmono\n".to_vec(), frames.concat()].concat());
        let (a, b, c, d) = (frame(b'a'), frame(b'b'), frame(b'c'), frame(b'd'));
        let all = [a.clone(), b.clone(), c.clone(), d.clone()];
        assert_eq!(clip(&all), [Ok(97), Ok(98), Ok(99), Ok(100)]);
        // bytes are missing: the frame takes the beginning of the next
        let short = b[..80].to_vec();
        assert_eq!(clip(&[a.clone(), short, c.clone(), d.clone()]), [Ok(97), bad(LATE), bad(NONE), Ok(100)]);
        // a head is damaged
        let headless = [b"FRAMF\n".to_vec(), vec![b'b'; 100]].concat();
        assert_eq!(clip(&[a.clone(), headless, c.clone(), d.clone()]), [bad(LATE), bad(NONE), Ok(99), Ok(100)]);
        // bytes too many
        let long = [a.clone(), b"\nFRAME?\n".to_vec()].concat();
        assert_eq!(clip(&[long, b.clone(), c.clone()]), [bad(LATE), Ok(98), Ok(99)]);
        // the end is cut: inside a frame, a head, and behind one
        let cut = "cut short: 10×10 pels take 100 bytes, and 99 are there";
        assert_eq!(clip(&[a.clone(), b[..105].to_vec()]), [Ok(97), bad(cut)]);
        assert_eq!(clip(&[a.clone(), b"FRA".to_vec()]), [Ok(97), bad("cut short: it ends inside a head")]);
        assert_eq!(
            clip(&[a.clone(), b"FRAME\n".to_vec()]),
            [Ok(97), bad("cut short: 10×10 pels take 100 bytes, and 0 are there")]
        );
        assert_eq!(clip(&[a.clone(), b"junk".to_vec()]), [bad(LATE)]);
        assert_eq!(clip(&[b"junk\n".to_vec(), b.clone()]), [bad(NONE), Ok(98)]);
        assert_eq!(clip(&[]), []);
    }

    #[test]
    fn a_pel_too_bright_is_told_and_the_next_frame_is_read() {
        let clip = b"YUV4MPEG2 W2 H1 Cmono10\nFRAME\n\0\x04\0\0FRAME\n\x01\0\0\0";
        let [Err(said), Ok(1)] = &firsts(clip)[..] else { panic!("{:?}", firsts(clip)) };
        assert!(said.starts_with("row 0, column 0: the pel is 1024, over the 1023"), "{said}");
    }

    #[test]
    fn frames_a_second_are_a_fraction() {
        assert_eq!(
            ["25:1", "30000:1001", "0:0", "25", "-1:1"].map(rate),
            [Some(25.0), Some(30000.0 / 1001.0), None, None, None]
        );
    }

    #[test]
    fn colours_behind_the_pels_are_counted() {
        let spaces = [
            ("", 255, 12),
            (" C420jpeg", 255, 12),
            (" C422", 255, 18),
            (" C411", 255, 12),
            (" C444", 255, 30),
            (" C444alpha", 255, 45),
            (" C420p10", 1023, 24),
            (" C444p16", 65535, 60),
            (" Cmono", 255, 0),
            (" Cmono12", 4095, 0),
        ];
        for (space, most, behind) in spaces {
            let pels = 15 * if most > 255 { 2 } else { 1 };
            for (bytes, whole) in [(pels + behind, true), (pels + behind - 1, false)] {
                let bytes = [format!("YUV4MPEG2 W5 H3{space}\nFRAME\n").into_bytes(), vec![0; bytes]].concat();
                assert_eq!(clip(&bytes).unwrap().most, most, "{space}");
                assert_eq!(firsts(&bytes)[0].is_ok(), whole, "{space}");
            }
        }
    }

    #[test]
    fn bad_heads_are_said() {
        let said = |text: &str, number: u64| first(text.as_bytes(), number).map(|_| ()).unwrap_err();
        assert_eq!(said("YUV4MPEG2 W2 H2", 0), "cut short: it ends inside a head");
        assert_eq!(said("YUV4MPEG2 H2\n", 0), "its head has no width (W)");
        assert_eq!(said("YUV4MPEG2 W2\n", 0), "its head has no height (H)");
        assert_eq!(said("YUV4MPEG2 W0 H2\n", 0), "the head says a width of 0: there is nothing to measure");
        assert_eq!(said("YUV4MPEG2 W2 H2 C420p8\n", 0), "its colour space C420p8 isn't known");
        assert_eq!(said("YUV4MPEG2 W2 H2 C440\n", 0), "its colour space C440 isn't known");
        assert!(said("YUV4MPEG2 W2 H2 It\n", 0).starts_with("it is interlaced (It)"));
        assert_eq!(said("YUV4MPEG2 W2 H2\n", 0), "it has 0 frames, so there is no frame 0 (the first is 0)");
        assert_eq!(said("YUV4MPEG2 W2 H2\nFRAMES\n", 0), "it doesn't begin with 'FRAME'");
        let said = said("YUV4MPEG2 W2 H2 Cmono\nFRAME\nabc", 1);
        assert_eq!(said, "frame 0: cut short: 2×2 pels take 4 bytes, and 3 are there");
    }
}
