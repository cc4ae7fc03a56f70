//! A loaded belt: a brightness for each place. Its pieces lie on it, one rolls on its own, and film flutters over it.

/// Without a pattern: a number from 0 to 1 for a crossing of the grid.
fn grain(seed: i64, x: i64, y: i64) -> f64 {
    let mut h = (x as u64).wrapping_mul(0x9E37_79B9_7F4A_7C15)
        ^ (y as u64).wrapping_mul(0xC2B2_AE3D_27D4_EB4F)
        ^ (seed as u64).wrapping_mul(0xD6E8_FEB8_6659_FD93);
    h = (h ^ h >> 29).wrapping_mul(0xBF58_476D_1CE4_E5B9);
    (h >> 40) as f64 / f64::from(1 << 24)
}

/// Smooth noise from 0 to 1 with a grid of 1.
fn noise(seed: i64, x: f64, y: f64) -> f64 {
    let (i, j) = (x.floor(), y.floor());
    let smooth = |part: f64| part * part * (3.0 - 2.0 * part);
    let (across, down) = (smooth(x - i), smooth(y - j));
    let (i, j) = (i as i64, j as i64);
    let row = |j: i64| grain(seed, i, j) * (1.0 - across) + grain(seed, i + 1, j) * across;
    row(j) * (1.0 - down) + row(j + 1) * down
}

/// A piece of the load: an ellipse with a shade and a texture of its own.
struct Piece {
    number: i64,
    centre: [f64; 2],
    radii: [f64; 2],
    turn: f64,
    shade: f64,
    /// How much of what lies below it hides.
    cover: f64,
}

impl Piece {
    /// A piece of the load by its number.
    fn of(number: i64, reach: f64) -> Piece {
        let any = |what: i64, from: f64, to: f64| from + (to - from) * grain(900 + what, number, 7 * number + what);
        Piece {
            number,
            centre: [any(0, -reach, reach), any(1, -reach / 2.0, reach / 2.0)],
            radii: [any(2, 9.0, 26.0), any(3, 7.0, 16.0)],
            turn: any(4, 0.0, 3.1),
            shade: any(5, 70.0, 225.0),
            cover: 1.0,
        }
    }

    /// The shade of a place that has another below.
    fn over(&self, below: f64, x: f64, y: f64) -> f64 {
        let (dx, dy) = (x - self.centre[0], y - self.centre[1]);
        if dx.abs().max(dy.abs()) > self.radii[0].max(self.radii[1]) + 2.0 {
            return below;
        }
        let (sine, cosine) = self.turn.sin_cos();
        let (along, across) = (dx * cosine + dy * sine, dy * cosine - dx * sine);
        let distance = (along / self.radii[0]).hypot(across / self.radii[1]);
        let inside = ((1.0 - distance) * self.radii[0].min(self.radii[1]) / 1.5 + 0.5).clamp(0.0, 1.0);
        let fine = noise(self.number + 50, along / 2.7, across / 2.7) - 0.5;
        let coarse = noise(self.number + 90, along / 7.0, across / 7.0) - 0.5;
        below + self.cover * inside * (self.shade + 60.0 * fine + 25.0 * coarse - below)
    }
}

/// The belt as it lies when a frame is taken, in the belt's own places.
pub struct Scene {
    pieces: Vec<Piece>,
}

impl Scene {
    pub fn at(frame: usize) -> Scene {
        let time = frame as f64;
        let mut pieces: Vec<Piece> = (0..90).map(|number| Piece::of(number, 300.0)).collect();
        // a can rolls back over the belt, and turns as it rolls
        let rolled = 1.5 * time;
        let centre = [40.0 - rolled, -40.0];
        pieces.push(Piece { centre, radii: [30.0, 22.0], turn: -rolled / 22.0, shade: 190.0, ..Piece::of(200, 1.0) });
        // film, through which the load is seen, lifts and falls
        let lift = [4.0 * (1.9 * time).sin(), 3.0 * (2.3 * time).cos()];
        let centre = [-80.0 + lift[0], 50.0 + lift[1]];
        pieces.push(Piece { centre, radii: [44.0, 26.0], turn: 0.2, shade: 210.0, cover: 0.75, ..Piece::of(201, 1.0) });
        Scene { pieces }
    }

    /// The belt seen through a picture of these sides, when it has gone so far.
    pub fn pels(&self, [width, height]: [usize; 2], gone: [f64; 2]) -> Vec<u16> {
        let pel = |i: usize| {
            let x = (i % width) as f64 - (width as f64 - 1.0) / 2.0 - gone[0];
            let y = (i / width) as f64 - (height as f64 - 1.0) / 2.0 - gone[1];
            let belt = 45.0 + 34.0 * noise(7, x / 3.1, y / 3.1) + 22.0 * noise(8, x / 9.7, y / 9.7);
            self.pieces.iter().fold(belt, |below, piece| piece.over(below, x, y)).round().clamp(0.0, 255.0) as u16
        };
        (0..width * height).map(pel).collect()
    }
}
