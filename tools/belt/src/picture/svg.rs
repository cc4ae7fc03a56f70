//! The scene as SVG, with the input as a PNG inside.

use super::{ADVANCE, Colour, HALO, HALO_SHARE, HALO_WIDTH, INK, PAPER, Point, Scene, font, png};
use std::fmt::Write;

fn colour([red, green, blue]: Colour) -> String {
    format!("#{red:02X}{green:02X}{blue:02X}")
}

fn escaped(text: &str) -> String {
    // what XML can't hold at all
    let plain = |c: char| if c.is_control() || matches!(c, '\u{FFFE}' | '\u{FFFF}') { '?' } else { c };
    text.chars().map(plain).collect::<String>().replace('&', "&amp;").replace('<', "&lt;").replace('>', "&gt;")
}

fn path(lines: &[Vec<Point>]) -> String {
    let mut text = String::new();
    for line in lines {
        for (i, [x, y]) in line.iter().enumerate() {
            let _ = write!(text, "{}{x:.1} {y:.1}", if i == 0 { 'M' } else { 'L' });
        }
    }
    text
}

pub fn draw(scene: &Scene) -> String {
    let Scene { width, height, sides, corner, .. } = scene;
    let [across, down] = sides.map(|side| side * scene.scale);
    let mut text = format!(
        "<svg xmlns=\"http://www.w3.org/2000/svg\" width=\"{width}\" height=\"{height}\" viewBox=\"0 0 {width} {height}\">\n\
         <title>{}</title>\n<rect width=\"{width}\" height=\"{height}\" fill=\"{}\"/>\n",
        escaped(&scene.title),
        colour(PAPER)
    );
    let input = base64::encode(png(*sides, ::png::ColorType::Grayscale, &scene.grey));
    let _ = writeln!(
        text,
        "<image x=\"{}\" y=\"{}\" width=\"{across}\" height=\"{down}\" preserveAspectRatio=\"none\" \
         style=\"image-rendering:pixelated\" href=\"data:image/png;base64,{input}\"/>",
        corner[0], corner[1]
    );
    text += "<g fill=\"none\" stroke-linecap=\"round\" stroke-linejoin=\"round\">\n";
    for strokes in scene.strokes.iter().filter(|strokes| !strokes.lines.is_empty()) {
        let (path, radius) = (path(&strokes.lines), strokes.radius);
        let halo = colour(HALO);
        let _ = writeln!(
            text,
            "<path stroke=\"{halo}\" stroke-opacity=\"{HALO_SHARE}\" stroke-width=\"{:.2}\" d=\"{path}\"/>\n\
             <path stroke=\"{}\" stroke-width=\"{:.2}\" d=\"{path}\"/>",
            2.0 * (radius + HALO_WIDTH),
            colour(strokes.colour),
            2.0 * radius,
        );
    }
    // a letter of such a font is 0.6 of its size wide
    let size = (ADVANCE * scene.dot) as f64 / 0.6;
    let ink = colour(INK);
    let _ = writeln!(text, "</g>\n<g font-family=\"monospace\" font-size=\"{size}\" fill=\"{ink}\">");
    let baseline = ((font::HEIGHT - 1) * scene.dot) as f64;
    for label in &scene.texts {
        let [x, y] = label.at;
        let words = escaped(&label.text);
        let _ = writeln!(text, "<text x=\"{x}\" y=\"{}\" xml:space=\"preserve\">{words}</text>", y + baseline);
    }
    text + "</g>\n</svg>\n"
}

#[cfg(test)]
mod tests {
    use super::*;

    #[test]
    fn names_are_escaped() {
        assert_eq!(escaped("a&b<c>\n\u{FFFF}é"), "a&amp;b&lt;c&gt;??é");
    }
}
