//! How the time of a search grows with the picture: the time of a block, from one block to 4,096.

use crate::cases;
use crate::inputs::Scene;
use crate::timing;

const SIDES: [usize; 7] = [16, 32, 64, 128, 256, 512, 1024];
/// Blocks of a measurement at least: small pictures come in turns.
const BLOCKS: usize = 256;

/// A scene, and for each side the microseconds of a block.
pub type Line = (Scene, [f64; SIDES.len()]);

pub fn measure() -> Vec<Line> {
    Scene::ALL.iter().map(|&scene| (scene, SIDES.map(|side| of_a_block(scene, side)))).collect()
}

fn of_a_block(scene: Scene, side: usize) -> f64 {
    let blocks = oracle::sample_count(side, side);
    let pictures = BLOCKS.div_ceil(blocks);
    let times = timing::in_turns(&mut [cases::searches(scene, side, side, pictures)], timing::WHOLE);
    1e6 * times.best(0) / (pictures * blocks) as f64
}

/// The page's part.
pub fn told(lines: &[Line]) -> String {
    let mut text = String::from(
        "## Growth\n\nMicroseconds of a block in a search of square pictures, small ones in turns so that one timing has \
         256 blocks or more. Flat is what is wanted: the time of a search is its blocks.\n\n\
         ![time of a block](growth.svg)\n\n| picture |",
    );
    SIDES.iter().for_each(|side| text += &format!(" {side}×{side} |"));
    text += &format!("\n|---|{}\n", "---|".repeat(SIDES.len()));
    for (scene, times) in lines {
        text += &format!("| {} |", scene.name());
        times.iter().for_each(|time| text += &format!(" {time:.2} |"));
        text.push('\n');
    }
    text
}

/// The same as a picture: sides to the right, each twice the last, and microseconds upwards.
pub fn drawn(lines: &[Line]) -> String {
    const LEFT: f64 = 60.0;
    const TOP: f64 = 20.0;
    const WIDE: f64 = 480.0;
    const HIGH: f64 = 220.0;
    const STEPS: f64 = 4.0;
    let greatest = lines.iter().flat_map(|(_, times)| times).fold(1.0, |most: f64, &time| most.max(time));
    let most = STEPS * (greatest / STEPS).ceil();
    let x = |i: usize| LEFT + WIDE * i as f64 / (SIDES.len() - 1) as f64;
    let y = |time: f64| TOP + HIGH * (1.0 - time / most);
    let mut svg = String::from(
        "<svg xmlns=\"http://www.w3.org/2000/svg\" viewBox=\"0 0 660 290\" font-family=\"sans-serif\" font-size=\"12\">\n\
         <rect width=\"660\" height=\"290\" fill=\"white\"/>\n",
    );
    for step in 0..=STEPS as u32 {
        let time = most * f64::from(step) / STEPS;
        svg += &format!(
            "<line x1=\"{LEFT}\" x2=\"{}\" y1=\"{:.1}\" y2=\"{:.1}\" stroke=\"#ddd\"/>\n\
             <text x=\"{}\" y=\"{:.1}\" text-anchor=\"end\">{time:.0}</text>\n",
            LEFT + WIDE,
            y(time),
            y(time),
            LEFT - 8.0,
            y(time) + 4.0
        );
    }
    for (i, side) in SIDES.iter().enumerate() {
        svg += &format!("<text x=\"{:.1}\" y=\"{}\" text-anchor=\"middle\">{side}</text>\n", x(i), TOP + HIGH + 20.0);
    }
    for ((scene, times), colour) in lines.iter().zip(["#b03030", "#3060b0", "#308050"]) {
        let points: Vec<String> =
            times.iter().enumerate().map(|(i, &time)| format!("{:.1},{:.1}", x(i), y(time))).collect();
        svg += &format!(
            "<polyline points=\"{}\" fill=\"none\" stroke=\"{colour}\" stroke-width=\"2\"/>\n\
             <text x=\"{}\" y=\"{:.1}\" fill=\"{colour}\">{}</text>\n",
            points.join(" "),
            LEFT + WIDE + 10.0,
            y(times[SIDES.len() - 1]) + 4.0,
            scene.name()
        );
    }
    svg += &format!(
        "<text x=\"{}\" y=\"{}\" text-anchor=\"middle\">side of the picture, pels; upwards microseconds of a block</text>\n</svg>\n",
        LEFT + WIDE / 2.0,
        TOP + HIGH + 42.0
    );
    svg
}
