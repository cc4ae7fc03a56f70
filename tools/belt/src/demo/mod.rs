//! A short clip of a belt, drawn with a known motion.

mod scene;

use frames::Frame;
use scene::Scene;

/// The sides of the clip, and its frames.
pub const SIDES: [usize; 2] = [320, 224];
pub const FRAMES: usize = 25;
/// Its frames a second.
pub const RATE: u32 = 25;

/// How far the belt goes from a frame to the next, right and down: it runs, creeps, runs faster and stops.
pub fn step(pair: usize) -> [f64; 2] {
    match pair {
        0..8 => [3.0, 0.0],
        8..14 => [0.2, 0.0],
        14..20 => [5.5, -0.75],
        _ => [0.0, 0.0],
    }
}

/// The frames of the clip.
pub fn frames() -> Vec<Frame> {
    let mut at = [0.0, 0.0];
    let mut frames = Vec::new();
    for number in 0..FRAMES {
        let [width, height] = SIDES;
        let pels = Scene::at(number).pels(SIDES, at);
        let name = format!("clip.y4m#{number}");
        frames.push(Frame { name, width, height, whole: (width, height), times: 1, most: 255, pels });
        let [right, down] = step(number);
        at = [at[0] + right, at[1] + down];
    }
    frames
}

/// The clip as a Y4M file of brightness alone.
pub fn clip(frames: &[Frame]) -> Vec<u8> {
    let mut file = format!("YUV4MPEG2 W{} H{} F{RATE}:1 Ip A1:1 Cmono\n", SIDES[0], SIDES[1]).into_bytes();
    for frame in frames {
        file.extend(b"FRAME\n");
        file.extend(frame.pels.iter().map(|&pel| pel as u8));
    }
    file
}
