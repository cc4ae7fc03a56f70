//! What each part of the way costs: `cargo test --release -- --ignored --nocapture cost`.

use crate::cloud::Cloud;
use crate::model::Model;
use crate::plane::Pair;
use crate::search::Search;
use crate::{Detail, Frame, found, left, normalise, polish, refit, texture};
use std::fs;

/// So many runs are timed together, so many times; the least counts, since other programs only add to it.
const RUNS: u32 = 20;
const TIMES: u32 = 6;

fn milliseconds() -> f64 {
    let said = fs::read_to_string("/proc/thread-self/schedstat").unwrap_or_default();
    said.split(' ').next().and_then(|nanoseconds| nanoseconds.parse().ok()).map_or(0.0, |n: f64| n / 1e6)
}

fn timed<T>(name: &str, mut part: impl FnMut() -> T) -> T {
    let done = part();
    let mut times = |_| {
        let begun = milliseconds();
        (0..RUNS).for_each(|_| drop(part()));
        milliseconds() - begun
    };
    let least = (0..TIMES).map(&mut times).fold(f64::INFINITY, f64::min);
    println!("{name:12} {:7.3} ms", least / f64::from(RUNS));
    done
}

#[test]
#[ignore = "a measurement, not a test"]
fn cost() {
    let (width, height) = (640, 480);
    let pel = |x: f64, y: f64| {
        let waves = (1..12).map(|k| {
            let k = f64::from(k);
            (x / (2.0 + k * 1.7) + k).sin() * (y / (2.5 + k * 1.3) + k * k).cos() * 20.0
        });
        (128.0 + waves.sum::<f64>()).clamp(0.0, 255.0) as u16
    };
    let frame = |dx: f64, dy: f64| {
        (0..width * height).map(|i| pel((i % width) as f64 * 1.01 + dx, (i / width) as f64 + dy)).collect::<Vec<u16>>()
    };
    let pels = [frame(0.0, 0.0), frame(-5.3, 2.2)];
    let [first, second] = [&pels[0], &pels[1]].map(|pels| Frame { pels, width, height, most: 255 });
    let details = timed("details", || [&first, &second].map(|frame| Detail::of(frame).unwrap()));
    let (earlier, later) = timed("planes", || normalise::planes(&details[0], &details[1]));
    let kept = vec![true; 1200];
    let pair = Pair { first: &earlier, second: &later, kept: &kept };
    let words = timed("search", || Search::new(1200, None, 1).words(pair).unwrap());
    timed("elect", || belt::elect(1, &words).unwrap());
    let usable = timed("texture", || texture::usable(pair, &words));
    let cloud: Cloud = usable.iter().map(|&block| words[block]).collect();
    println!("usable {}", cloud.len());
    timed("starts", || crate::starts::starts(&cloud));
    let found = timed("robust", || refit::robust(&cloud).unwrap());
    timed("affine fit", || belt::fit_affine(&cloud.words).unwrap());
    timed("left", || left::by_model(pair, &found.model));
    timed("left still", || left::by_model(pair, &Model::IDENTITY));
    timed("voted", || found::voted(pair, &cloud, &[]));
    timed("again", || refit::again(&cloud, found.model));
    timed("polish", || polish::polished(pair, &cloud.words, &found.model));
    timed("shares", || crate::shares::shares(&cloud));
    timed("found", || found::Found::of(pair, &[], &mut Search::new(1200, None, 1)).unwrap());
    timed("all", || crate::measure(&first, &second, &crate::Options::default()).unwrap());
}
