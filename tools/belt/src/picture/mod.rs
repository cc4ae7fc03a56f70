//! A picture of what was measured: the input with an arrow for each block (`arrows`), coloured by how far the model is
//! from it, and a legend below (`legend`). The scene is laid out here once; `svg` and `canvas` draw it.

mod arrows;
mod canvas;
mod font;
mod legend;
mod svg;

use crate::failure::Failure;
use crate::measure::Measured;
use crate::output::shown;
use frames::Frame;
use std::path::Path;

type Point = [f64; 2];
type Colour = [u8; 3];

/// What the background of the legend and its letters look like.
const PAPER: Colour = [250, 250, 250];
const INK: Colour = [20, 20, 20];
/// The halo around arrows, and how much of it is seen.
const HALO: Colour = [0, 0, 0];
const HALO_SHARE: f64 = 0.6;
const HALO_WIDTH: f64 = 1.5;

/// The side that a picture is drawn at, about, and the least width of the whole.
const SIDE: usize = 1280;
const LEAST_WIDTH: usize = 640;
const MARGIN: usize = 16;
/// From this width on letters are larger.
const WIDE: usize = 1600;
/// From one letter to the next, in dots.
const ADVANCE: usize = font::WIDTH + 1;

/// Lines of one colour and radius.
struct Strokes {
    colour: Colour,
    radius: f64,
    lines: Vec<Vec<Point>>,
}

struct Text {
    /// The left end, and the top of its letters.
    at: Point,
    text: String,
}

/// Everything to draw, in pixels.
struct Scene {
    width: usize,
    height: usize,
    title: String,
    /// The input in shades of grey, its sides in pels, the pixels of a pel, and its left top corner.
    grey: Vec<u8>,
    sides: [usize; 2],
    scale: usize,
    corner: [usize; 2],
    strokes: Vec<Strokes>,
    texts: Vec<Text>,
    /// The side of a letter's dot.
    dot: usize,
}

/// The two kinds of file, by their ends.
pub enum Kind {
    Svg,
    Png,
}

impl Kind {
    pub fn of(path: &Path) -> Result<Kind, Failure> {
        match path.extension().and_then(|end| end.to_str()).map(str::to_ascii_lowercase).as_deref() {
            Some("svg") => Ok(Kind::Svg),
            Some("png") => Ok(Kind::Png),
            None if path == Path::new("-") => Ok(Kind::Png),
            _ => Err(Failure::bad(shown(path), "a picture's name ends in .svg or .png")),
        }
    }
}

/// Draws it.
pub fn draw(kind: &Kind, measured: &Measured, input: &Frame) -> Vec<u8> {
    let scene = scene(measured, input);
    match kind {
        Kind::Svg => svg::draw(&scene).into_bytes(),
        Kind::Png => canvas::draw(&scene),
    }
}

/// A PNG file of 8 bits a value.
fn png(sides: [usize; 2], colours: ::png::ColorType, values: &[u8]) -> Vec<u8> {
    let mut file = Vec::new();
    let [width, height] = sides.map(|side| side as u32);
    let mut encoder = ::png::Encoder::new(&mut file, width, height);
    encoder.set_color(colours);
    encoder.set_adaptive_filter(::png::AdaptiveFilterType::Adaptive);
    let written = encoder.write_header().and_then(|mut writer| writer.write_image_data(values));
    written.expect("the values are as many as the sides say, and memory can be written");
    file
}

/// The pels in shades of grey, from the darkest hundredth to the brightest, dimmed so that arrows stand out.
fn shades(pels: &[u16]) -> Vec<u8> {
    let mut sorted = pels.to_vec();
    sorted.sort_unstable();
    let at = |share: f64| f64::from(sorted[((sorted.len() - 1) as f64 * share) as usize]);
    let (dark, bright) = (at(0.01), at(0.99));
    let shade = |&pel: &u16| {
        let share = if bright > dark { (f64::from(pel) - dark) / (bright - dark) } else { 0.5 };
        (25.0 + 170.0 * share.clamp(0.0, 1.0)) as u8
    };
    pels.iter().map(shade).collect()
}

/// The scene: the picture with room around it for arrows that leave it, and the legend.
fn scene(measured: &Measured, input: &Frame) -> Scene {
    let scale = (SIDE / input.width.max(input.height)).clamp(2, 8);
    let drawn = [input.width * scale, input.height * scale];
    let times = arrows::times(&measured.blocks);
    let mut strokes = arrows::strokes(measured, times, scale as f64);
    let [before, behind] =
        arrows::beyond(&strokes, drawn).map(|ends| ends.map(|pixels| MARGIN.max(pixels + MARGIN / 2)));
    let own_width = before[0] + drawn[0] + behind[0];
    let width = own_width.max(LEAST_WIDTH);
    let corner = [before[0] + (width - own_width) / 2, before[1]];
    for point in strokes.iter_mut().flat_map(|group| &mut group.lines).flatten() {
        *point = [point[0] + corner[0] as f64, point[1] + corner[1] as f64];
    }
    let mut scene = Scene {
        width,
        height: before[1] + drawn[1] + behind[1],
        title: format!("{} to {}", measured.input, measured.reference),
        grey: shades(&input.pels),
        sides: [input.width, input.height],
        scale,
        corner,
        strokes,
        texts: Vec::new(),
        dot: if width < WIDE { 2 } else { 3 },
    };
    legend::add(&mut scene, measured, times);
    scene
}

#[cfg(test)]
mod tests {
    use super::*;
    use crate::measure::measure;
    use crate::measure::tests::{frame, job};

    pub fn example() -> (Measured, Frame) {
        let input = frame("a<b>.pgm", 96, 64, 2, -4);
        (measure(&job(1), &input, &frame("b.pgm", 96, 64, 0, 0)).unwrap(), input)
    }

    #[test]
    fn every_block_has_a_dot_and_an_arrow_of_its_motion() {
        let (measured, input) = example();
        let scene = scene(&measured, &input);
        let dots: usize = scene.strokes[..6].iter().step_by(2).map(|group| group.lines.len()).sum();
        assert_eq!(dots, 24);
        let [from, to] = scene.strokes[1].lines[0][..] else { panic!("a shaft has two ends") };
        let times = arrows::times(&measured.blocks);
        let first = measured.blocks.iter().find(|block| block.off <= 0.25).unwrap();
        let scale = scene.scale as f64;
        assert_eq!([to[0] - from[0], to[1] - from[1]], [-4.0 * times * scale, 2.0 * times * scale]);
        assert_eq!(from[0], (first.x + 0.5) * scale + scene.corner[0] as f64);
    }

    #[test]
    fn every_arrow_is_inside_and_above_the_legend() {
        let (measured, input) = example();
        let scene = scene(&measured, &input);
        let legend = scene.texts.iter().map(|text| text.at[1]).fold(f64::INFINITY, f64::min);
        for [x, y] in scene.strokes[..6].iter().flat_map(|group| &group.lines).flatten() {
            assert!(*x > 0.0 && *x < scene.width as f64 && *y > 0.0 && *y < legend, "{x} {y}");
        }
    }

    #[test]
    fn both_kinds_are_drawn() {
        let (measured, input) = example();
        let scene = scene(&measured, &input);
        let file = draw(&Kind::Png, &measured, &input);
        let mut reader = ::png::Decoder::new(&file[..]).read_info().unwrap();
        let mut values = vec![0; reader.output_buffer_size()];
        let info = reader.next_frame(&mut values).unwrap();
        assert_eq!((info.width as usize, info.height as usize), (scene.width, scene.height));
        let blue = values.chunks(3).filter(|pixel| *pixel == arrows::COLOURS[0]).count();
        assert!(blue > 500, "{blue} pixels of arrows");
        let text = String::from_utf8(draw(&Kind::Svg, &measured, &input)).unwrap();
        assert!(text.contains("<title>a&lt;b&gt;.pgm to b.pgm</title>") && text.ends_with("</svg>\n"));
        assert!(Kind::of(Path::new("x.PNG")).is_ok() && Kind::of(Path::new("x.jpg")).is_err());
    }
}
