//! The scene as pixels.

use super::{ADVANCE, Colour, HALO, HALO_SHARE, HALO_WIDTH, INK, PAPER, Point, Scene, Strokes, Text, font};
use tiny_skia::{Color, LineCap, LineJoin, Paint, Path, PathBuilder, Pixmap, PixmapPaint, Rect, Stroke, Transform};

pub fn draw(scene: &Scene) -> Vec<u8> {
    let mut canvas = Pixmap::new(scene.width as u32, scene.height as u32).expect("a scene has sides");
    canvas.fill(shade(PAPER, 1.0));
    input(&mut canvas, scene);
    for strokes in &scene.strokes {
        stroke(&mut canvas, strokes, strokes.radius + HALO_WIDTH, shade(HALO, HALO_SHARE));
        stroke(&mut canvas, strokes, strokes.radius, shade(strokes.colour, 1.0));
    }
    for letters in &scene.texts {
        text(&mut canvas, letters, scene.dot);
    }
    let pixels = canvas.pixels().iter().flat_map(|pixel| [pixel.red(), pixel.green(), pixel.blue()]);
    super::png([scene.width, scene.height], ::png::ColorType::Rgb, &pixels.collect::<Vec<_>>())
}

fn shade([red, green, blue]: Colour, share: f64) -> Color {
    Color::from_rgba8(red, green, blue, (255.0 * share).round() as u8)
}

fn paint(colour: Color) -> Paint<'static> {
    let mut paint = Paint { anti_alias: true, ..Paint::default() };
    paint.set_color(colour);
    paint
}

/// The input, each pel a square.
fn input(canvas: &mut Pixmap, scene: &Scene) {
    let [width, height] = scene.sides.map(|side| side as u32);
    let mut input = Pixmap::new(width, height).expect("a picture has sides");
    for (pixel, &grey) in input.data_mut().chunks_exact_mut(4).zip(&scene.grey) {
        pixel.copy_from_slice(&[grey, grey, grey, 255]);
    }
    let (scale, [left, top]) = (scene.scale as f32, scene.corner.map(|place| place as f32));
    let place = Transform::from_row(scale, 0.0, 0.0, scale, left, top);
    canvas.draw_pixmap(0, 0, input.as_ref(), &PixmapPaint::default(), place, None);
}

/// A path of all lines, so that a pixel where two of them cross is coloured once.
fn path(lines: &[Vec<Point>]) -> Option<Path> {
    let mut path = PathBuilder::new();
    for line in lines {
        for (i, [x, y]) in line.iter().map(|point| point.map(|place| place as f32)).enumerate() {
            if i == 0 { path.move_to(x, y) } else { path.line_to(x, y) }
        }
    }
    path.finish()
}

/// Lines of a radius with round ends.
fn stroke(canvas: &mut Pixmap, strokes: &Strokes, radius: f64, colour: Color) {
    let (line_cap, line_join) = (LineCap::Round, LineJoin::Round);
    let stroke = Stroke { width: 2.0 * radius as f32, line_cap, line_join, ..Stroke::default() };
    if let Some(path) = path(&strokes.lines) {
        canvas.stroke_path(&path, &paint(colour), &stroke, Transform::identity(), None);
    }
}

/// A text whose letters have dots of a side.
fn text(canvas: &mut Pixmap, text: &Text, dot: usize) {
    let ([left, top], dot) = (text.at.map(|place| place as f32), dot as f32);
    let ink = Paint { anti_alias: false, ..paint(shade(INK, 1.0)) };
    let dots = (0..font::HEIGHT).flat_map(|row| (0..font::WIDTH).map(move |column| (row, column)));
    for (i, letter) in text.text.chars().enumerate() {
        for (row, column) in dots.clone().filter(|(row, column)| font::pixel(letter, *row, *column)) {
            let (x, y) = (left + (i * ADVANCE + column) as f32 * dot, top + row as f32 * dot);
            let square = Rect::from_xywh(x, y, dot, dot).expect("a dot has a side");
            canvas.fill_rect(square, &ink, Transform::identity(), None);
        }
    }
}

#[cfg(test)]
mod tests {
    use super::*;

    fn canvas(width: u32, height: u32) -> Pixmap {
        let mut canvas = Pixmap::new(width, height).unwrap();
        canvas.fill(Color::WHITE);
        canvas
    }

    #[test]
    fn a_line_covers_what_lies_on_it_and_a_dot_is_drawn() {
        let mut drawn = canvas(9, 5);
        let strokes = |line: Vec<Point>| Strokes { colour: [0; 3], radius: 1.0, lines: vec![line] };
        stroke(&mut drawn, &strokes(vec![[2.5, 2.5], [6.5, 2.5]]), 1.0, Color::BLACK);
        let grey = |canvas: &Pixmap, x: u32, y: u32| canvas.pixel(x, y).unwrap().red();
        assert!((3..6).all(|x| grey(&drawn, x, 2) == 0 && (100..156).contains(&grey(&drawn, x, 1))));
        assert_eq!([grey(&drawn, 0, 2), grey(&drawn, 4, 0)], [255; 2]);
        stroke(&mut drawn, &strokes(vec![[-40.0, 90.0], [80.0, -7.0]]), 1.0, Color::BLACK);
        let mut dotted = canvas(7, 7);
        stroke(&mut dotted, &strokes(vec![[3.5, 3.5], [3.5, 3.5]]), 2.0, Color::BLACK);
        assert_eq!([grey(&dotted, 3, 3), grey(&dotted, 2, 3), grey(&dotted, 0, 0)], [0, 0, 255]);
    }

    #[test]
    fn letters_end_at_the_canvas() {
        let mut canvas = canvas(8, 8);
        text(&mut canvas, &Text { at: [0.0, 0.0], text: "LL".into() }, 2);
        assert_eq!((canvas.pixel(0, 0).unwrap().red(), canvas.pixel(2, 0).unwrap().red()), (INK[0], 255));
    }
}
