//! The head of a binary PGM or PPM file: `P5` or `P6`, width, height and the largest value, with spaces and comments
//! between them, and one space behind.

use super::{Head, LONGEST_HEAD, Layout, Plain, Source, side};
use std::io::Read;

/// A head byte by byte, up to its length.
struct Reader {
    source: Source,
    left: usize,
}

impl Reader {
    /// The next byte; a comment is the end of its line.
    fn byte(&mut self) -> Result<u8, String> {
        let mut inside = false;
        loop {
            self.left = self.left.checked_sub(1).ok_or(format!("its head is over {LONGEST_HEAD} bytes long"))?;
            let mut byte = [0];
            self.source.read_exact(&mut byte).map_err(|_| "cut short: it ends inside its head")?;
            match byte[0] {
                b'#' => inside = true,
                b'\n' => return Ok(b'\n'),
                byte if !inside => return Ok(byte),
                _ => {}
            }
        }
    }

    /// The next word, past spaces and comments, and the one space behind it.
    fn word(&mut self) -> Result<String, String> {
        let mut word = String::new();
        loop {
            match self.byte()? {
                byte if byte.is_ascii_whitespace() && word.is_empty() => {}
                byte if byte.is_ascii_whitespace() => return Ok(word),
                byte => word.push(char::from(byte)),
            }
        }
    }
}

/// Reads the head; the pels come next.
pub fn head(source: Source) -> Result<Head, String> {
    let mut reader = Reader { source, left: LONGEST_HEAD };
    let values = match reader.word()?.as_str() {
        "P5" => 1,
        "P6" => 3,
        magic => {
            return Err(format!("it begins with '{magic}', a PGM file with 'P5' and a space, a PPM file with 'P6'"));
        }
    };
    let width = side(&reader.word()?, "width")?;
    let height = side(&reader.word()?, "height")?;
    let text = reader.word()?;
    let most = match text.parse::<u64>() {
        Ok(most @ 1..=65_535) if !text.starts_with('+') => most as u16,
        Ok(_) if !text.starts_with('+') => {
            return Err(format!("the head says a largest value of {text}; 1 to 65,535 can be read"));
        }
        _ => return Err(format!("the head has '{text}' where its largest value should be")),
    };
    let layout = Layout { bytes: if most > 255 { 2 } else { 1 }, low_first: false, values };
    let rows = Box::new(Plain::of(reader.source, (width, height), most, layout, 0));
    Ok(Head { width, height, most, rows })
}

#[cfg(test)]
mod tests {
    use super::super::tests::{first, opened};

    #[test]
    fn comments_and_spaces_are_passed_over_and_one_space_ends_the_head() {
        let heads =
            ["P5 3 2 255\n", "P5\n# a camera\n3 #left\n 2\n#x\n#y\n255\n", "P5\t3\r\n2\n255 ", "P5 3#c\n2 255#c\n"];
        for text in heads {
            let frame = first(&[text.as_bytes(), b"\n#abcd"].concat(), 0).unwrap();
            assert_eq!((frame.width, frame.height, frame.most), (3, 2, 255));
            assert_eq!(frame.pels, b"\n#abcd".map(u16::from), "after {text:?}");
        }
    }

    #[test]
    fn bad_heads_are_said() {
        let said = |text: &str| opened(text.as_bytes(), 0).map(|_| ()).unwrap_err();
        for text in ["P5", "P5 3 2 255", "P5 3 # no end"] {
            assert_eq!(said(text), "cut short: it ends inside its head");
        }
        assert!(said("P5x 3 2 255\n").starts_with("it begins with 'P5x', a PGM file with 'P5' and a space"));
        assert_eq!(said("P5 0 0 255\n"), "the head says a width of 0: there is nothing to measure");
        assert_eq!(said("P5 -3 2 255\n"), "the head has '-3' where its width should be");
        assert_eq!(said("P5 3 +2 255\n"), "the head has '+2' where its height should be");
        for absurd in ["65536", "4000000000", "18446744073709551616", "99999999999999999999999"] {
            let text = format!("P5 {absurd} 1 255\n");
            assert_eq!(said(&text), format!("the head says a width of {absurd}: no picture is so large"));
        }
        for most in ["0", "65536"] {
            let text = format!("the head says a largest value of {most}; 1 to 65,535 can be read");
            assert_eq!(said(&format!("P5 3 2 {most}\n")), text);
        }
        for most in ["white", "+65535", "+0"] {
            let text = format!("the head has '{most}' where its largest value should be");
            assert_eq!(said(&format!("P5 3 2 {most}\n")), text);
        }
        assert_eq!(said(&format!("P5 #{}", "-".repeat(70_000))), "its head is over 65536 bytes long");
    }
}
