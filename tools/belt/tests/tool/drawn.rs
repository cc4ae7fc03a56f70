//! A belt that is drawn: what lies on it, and what light, blur and noise make of it.

/// The sides of the drawn belt.
pub const WIDTH: usize = 320;
pub const HEIGHT: usize = 240;

/// A loaded belt that went so far: smooth noise of three widths.
pub fn load(seed: u64, [right, down]: [f64; 2]) -> Vec<f64> {
    let grain = |x: f64, y: f64, width: u64| {
        let [x, y] = [x as i64 as u64, y as i64 as u64];
        let h = x.wrapping_mul(0x9E37_79B9_7F4A_7C15) ^ y.wrapping_mul(0xC2B2_AE3D_27D4_EB4F) ^ seed << 17 ^ width << 7;
        let h = (h ^ h >> 29).wrapping_mul(0xBF58_476D_1CE4_E5B9);
        ((h ^ h >> 32).wrapping_mul(0x94D0_49BB_1331_11EB) >> 40) as f64 / f64::from(1 << 24) - 0.5
    };
    let smooth = |t: f64| t * t * (3.0 - 2.0 * t);
    let noise = |x: f64, y: f64, width: u64| {
        let (x, y) = (x / width as f64, y / width as f64);
        let (left, top) = (x.floor(), y.floor());
        let (across, along) = (smooth(x - left), smooth(y - top));
        let row = |y: f64| grain(left, y, width) * (1.0 - across) + grain(left + 1.0, y, width) * across;
        row(top) * (1.0 - along) + row(top + 1.0) * along
    };
    let pel = |i: usize| {
        let (x, y) = ((i % WIDTH) as f64 - right + 2000.0, (i / WIDTH) as f64 - down + 2000.0);
        128.0 + 70.0 * noise(x, y, 4) + 70.0 * noise(x, y, 9) + 60.0 * noise(x, y, 23)
    };
    (0..WIDTH * HEIGHT).map(pel).collect()
}

/// Of two pictures, the one where the other isn't.
pub fn over(below: Vec<f64>, above: &[f64], is_above: impl Fn(usize, usize) -> bool) -> Vec<f64> {
    let pel = |(i, pel): (usize, f64)| if is_above(i % WIDTH, i / WIDTH) { above[i] } else { pel };
    below.into_iter().enumerate().map(pel).collect()
}

/// The mean of three by three, so many times.
pub fn blurred(pels: Vec<f64>, times: usize) -> Vec<f64> {
    let once = |pels: Vec<f64>| {
        let at = |x: usize, y: usize| pels[y.min(HEIGHT - 1) * WIDTH + x.min(WIDTH - 1)];
        let around = |i: usize| {
            let (x, y) = (i % WIDTH, i / WIDTH);
            let places = (0..9).map(|j| at((x + j % 3).saturating_sub(1), (y + j / 3).saturating_sub(1)));
            places.sum::<f64>() / 9.0
        };
        (0..pels.len()).map(around).collect()
    };
    (0..times).fold(pels, |pels, _| once(pels))
}

/// Noise of about this deviation: the sum of four numbers.
pub fn noisy(pels: Vec<f64>, mut state: u32, deviation: f64) -> Vec<f64> {
    let mut any = || {
        state = state.wrapping_mul(1_664_525).wrapping_add(1_013_904_223);
        f64::from(state >> 8) / f64::from(1 << 24) - 0.5
    };
    pels.into_iter().map(|pel| pel + deviation * 1.73 * (0..4).map(|_| any()).sum::<f64>()).collect()
}

pub fn brighter(pels: Vec<f64>, times: f64, more: f64) -> Vec<f64> {
    pels.into_iter().map(|pel| times * pel + more).collect()
}

fn bytes(pels: &[f64]) -> impl Iterator<Item = u8> {
    pels.iter().map(|pel| pel.round().clamp(0.0, 255.0) as u8)
}

pub fn pgm(pels: Vec<f64>) -> Vec<u8> {
    format!("P5 {WIDTH} {HEIGHT} 255\n").into_bytes().into_iter().chain(bytes(&pels)).collect()
}

/// A clip of brightness alone, of 25 frames a second.
pub fn y4m(frames: &[Vec<f64>]) -> Vec<u8> {
    let mut clip = format!("YUV4MPEG2 W{WIDTH} H{HEIGHT} F25:1 Ip Cmono\n").into_bytes();
    for frame in frames {
        clip.extend(b"FRAME\n");
        clip.extend(bytes(frame));
    }
    clip
}
