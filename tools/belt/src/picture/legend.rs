//! What stands below the picture: what was measured, warnings, and what arrows and colours mean.

use super::arrows::{COLOURS, NEAR, arrow, is_shortened, longest, rank};
use super::{ADVANCE, Colour, MARGIN, Point, Scene, Strokes, Text};
use crate::measure::Measured;
use crate::model;
use crate::report::words;
use textwrap::WordSplitter;
use track::{How, Status};

/// Sizes of the legend, in dots of its letters: from line to line, between text and keys, the room for a key, and where
/// its text begins.
const LINE: usize = 13;
const GAP: usize = 4;
const KEY: f64 = 36.0;
const KEY_TEXT: f64 = 28.0;
/// The grey of a key that goes for every colour.
const ANY: Colour = [200; 3];

/// A text in lines of at most so many letters.
fn wrapped(text: &str, letters: usize) -> Vec<String> {
    let lines = textwrap::wrap(
        text,
        textwrap::Options::new(letters).break_words(false).word_splitter(WordSplitter::NoHyphenation),
    );
    lines.iter().map(|line| cut(line, letters)).collect()
}

/// A text's end, if it has more letters.
fn cut(text: &str, letters: usize) -> String {
    let count = text.chars().count();
    if count <= letters {
        text.into()
    } else {
        format!("...{}", text.chars().skip(count + 3 - letters).collect::<String>())
    }
}

/// The names of both pictures in one line; where it has no room, the end of each.
fn names(measured: &Measured, letters: usize) -> String {
    let (input, reference) = (&measured.input, &measured.reference);
    let whole = format!("{input} to {reference}");
    if whole.chars().count() <= letters {
        return whole;
    }
    let half = (letters - " to ".len()) / 2;
    format!("{} to {}", cut(input, half), cut(reference, half))
}

/// What the blocks have to do with the model.
fn blocks(measured: &Measured) -> String {
    let answer = &measured.answer;
    let name = model::words(answer.model.gm_type);
    match answer.status {
        Status::Flat | Status::NoBlocks => "No block tells a motion".into(),
        Status::Unexplained => format!("The colours are of a guess, {name}, that isn't to be trusted"),
        _ => {
            let (share, usable) = (words::per_cent(measured.share()), words::many(answer.usable, "block"));
            let named = matches!(answer.how, How::Plain | How::Trimmed);
            let which = if named { "" } else { " that can tell their motion" };
            let coarse = match answer.how {
                How::Shifted => {
                    " once the second picture is moved; the arrows are of the search as it is, which doesn't reach so far"
                }
                How::HalfSize => " at half the size; the arrows are of the full size, which doesn't tell it",
                _ => "",
            };
            format!("{share} of {usable}{which} agree with {name}{coarse}")
        }
    }
}

fn lines(measured: &Measured, letters: usize) -> Vec<String> {
    let said = format!("{}; header {} bits", blocks(measured), measured.report.bits);
    let mut lines = vec![names(measured, letters)];
    lines.extend(wrapped(&format!("{}.", words::sentence(measured)), letters));
    lines.extend(wrapped(&said, letters));
    for warning in &measured.warnings {
        lines.extend(wrapped(&format!("Warning: {}: {}.", warning.name, warning.text), letters));
    }
    lines
}

/// A length for the key's arrow, in pels, that is drawn in so many pixels.
fn key_length(pixels_per_pel: f64, room: f64) -> f64 {
    let drawn = |pels: &f64| pels * pixels_per_pel <= room;
    [20.0, 10.0, 5.0, 2.0, 1.0, 0.5, 0.25, 0.1].into_iter().find(drawn).unwrap_or(0.1)
}

/// The next row of keys: an arrow of a length in pixels, and a text.
fn key(scene: &mut Scene, colour: Colour, length: f64, heads: usize, text: String) {
    let (dot, top) = (scene.dot as f64, scene.height as f64);
    let from: Point = [MARGIN as f64 + 2.0 * dot, top + 3.5 * dot];
    let to = [from[0] + length, from[1]];
    let mut lines = arrow(from, to, dot, heads);
    lines.push(vec![from, from]);
    scene.strokes.push(Strokes { colour, radius: dot, lines });
    let left = (to[0] + 8.0 * dot).max(MARGIN as f64 + KEY_TEXT * dot);
    scene.texts.push(Text { at: [left, top], text });
    scene.height += LINE * scene.dot;
}

/// Puts the legend below all that the scene has.
pub fn add(scene: &mut Scene, measured: &Measured, times: f64) {
    let dot = scene.dot;
    for text in lines(measured, (scene.width - 2 * MARGIN) / (ADVANCE * dot)) {
        scene.texts.push(Text { at: [MARGIN as f64, scene.height as f64], text });
        scene.height += LINE * dot;
    }
    scene.height += GAP * dot;
    let within = measured.answer.within;
    // the picture's pels, of which one that is drawn may be more
    let own = |pels: f64| words::pels(pels * measured.times as f64);
    let meanings = [
        format!("within {} of the model", own(within)),
        format!("off by up to {}", own(NEAR.max(within))),
        "further off".to_string(),
    ];
    let usual = 18.0 * dot as f64;
    for (number, meaning) in meanings.into_iter().enumerate() {
        let count = measured.used().filter(|block| rank(block, within) == number).count();
        key(scene, COLOURS[number], usual, 1, format!("{meaning}: {}", words::many(count, "block")));
    }
    let pixels_per_pel = times * scene.scale as f64;
    let length = key_length(pixels_per_pel, KEY * dot as f64);
    let drawn = if times == 1.0 { String::new() } else { format!(", drawn {times} times as long") };
    key(scene, ANY, length * pixels_per_pel, 1, format!("{} of motion{drawn}", own(length)));
    if measured.used().any(|block| is_shortened(block, times)) {
        let text = format!("more than {} of motion, drawn shorter", own(longest(times)));
        key(scene, ANY, usual, 2, text);
    }
    scene.height += MARGIN / 2;
}

#[cfg(test)]
mod tests {
    use super::super::tests::example;
    use super::*;
    use crate::measure::Warning;

    #[test]
    fn texts_are_cut_and_wrapped() {
        assert_eq!(wrapped("one two three", 7), ["one two", "three"]);
        assert_eq!(wrapped("a-very-long-name x", 8), ["...-name", "x"]);
        assert_eq!(cut("frames/0001.pgm", 15), "frames/0001.pgm");
        assert_eq!(cut("frames/0001.pgm", 11), "...0001.pgm");
    }

    #[test]
    fn both_names_are_told_and_every_warning() {
        let (mut measured, _) = example();
        measured.input = "folder/first.pgm".into();
        measured.reference = "folder/second.pgm".into();
        assert_eq!(names(&measured, 40), "folder/first.pgm to folder/second.pgm");
        assert_eq!(names(&measured, 30), ".../first.pgm to ...second.pgm");
        measured.warnings = ["one", "two"].map(|name| Warning { name, text: "do this".into() }).to_vec();
        let text = lines(&measured, 60).join(" ");
        assert_eq!(text.matches("Warning: ").count(), 2, "{text}");
    }
}
