//! Speed as ratios of one run, and memory: `../cargo test --release --test speed -- --ignored --nocapture`.

mod tool;

use std::fs;
use std::process::Stdio;
use std::thread;
use std::time::{Duration, Instant};
use tool::Folder;

const WIDTH: usize = 640;
const HEIGHT: usize = 480;
const FRAMES: usize = 48;

/// A loaded belt with noise of the camera, moved so far.
fn frame(number: usize, right: f64, down: f64) -> Vec<u16> {
    let mut state = number as u32 * 7919 + 1;
    let mut any = || {
        state = state.wrapping_mul(1_664_525).wrapping_add(1_013_904_223);
        f64::from(state >> 8) / f64::from(1 << 24) - 0.5
    };
    let pel = |i: usize| {
        let (x, y) = ((i % WIDTH) as f64 - right, (i / WIDTH) as f64 - down);
        let wave = |k: f64| (x / (2.0 + k * 1.7) + k).sin() * (y / (2.5 + k * 1.3) + k * k).cos() * 20.0;
        let sum: f64 = (1..12).map(|k| wave(f64::from(k))).sum();
        (128.0 + sum + 8.0 * any()).clamp(0.0, 255.0) as u16
    };
    (0..WIDTH * HEIGHT).map(pel).collect()
}

/// The seconds of processor time that this thread has taken.
fn own_seconds() -> f64 {
    let said = fs::read_to_string("/proc/thread-self/schedstat").unwrap();
    said.split(' ').next().unwrap().parse::<f64>().unwrap() / 1e9
}

/// The seconds of processor time of the programs that have ended.
fn child_seconds() -> f64 {
    let said = fs::read_to_string("/proc/self/stat").unwrap();
    let fields: Vec<&str> = said.rsplit(')').next().unwrap().split_whitespace().collect();
    [13, 14].iter().map(|at: &usize| fields[*at].parse::<f64>().unwrap() / 100.0).sum()
}

/// Seconds that a search of all pairs takes.
fn searches(frames: &[Vec<u16>]) -> f64 {
    let mut buffers = belt::Buffers::new(WIDTH, HEIGHT);
    let classes = vec![0; buffers.words.len()];
    let belt::Buffers { input_half, ref_half, words, .. } = &mut buffers;
    let begun = own_seconds();
    for two in frames.windows(2) {
        belt::collect_motion_samples(&two[0], &two[1], WIDTH, HEIGHT, &classes, input_half, ref_half, words).unwrap();
    }
    own_seconds() - begun
}

/// The seconds of processor time of a program's busiest thread so far.
fn busiest(program: u32) -> f64 {
    let threads = fs::read_dir(format!("/proc/{program}/task")).into_iter().flatten().flatten();
    let said = threads.filter_map(|thread| fs::read_to_string(thread.path().join("schedstat")).ok());
    said.filter_map(|said| said.split(' ').next()?.parse::<f64>().ok()).fold(0.0, f64::max) / 1e9
}

/// Seconds on the clock, of processors, of the busiest thread, and the most memory in MB.
fn tracked(folder: &Folder, words: &[&str]) -> [f64; 4] {
    let (begun, before) = (Instant::now(), child_seconds());
    let mut command = folder.command(&[&["track", "clip.y4m", "--quiet"], words].concat());
    let mut child = command.stdout(Stdio::null()).spawn().unwrap();
    let (mut most, mut thread) = (0.0f64, 0.0f64);
    while child.try_wait().unwrap().is_none() {
        let status = fs::read_to_string(format!("/proc/{}/status", child.id())).unwrap_or_default();
        let line = status.lines().find(|line| line.starts_with("VmHWM"));
        let peak = line.and_then(|line| line.split_whitespace().nth(1)?.parse::<f64>().ok());
        most = most.max(peak.unwrap_or(0.0) / 1024.0);
        thread = thread.max(busiest(child.id()));
        thread::sleep(Duration::from_millis(5));
    }
    [begun.elapsed().as_secs_f64(), child_seconds() - before, thread, most]
}

#[test]
#[ignore = "a measurement, not a test"]
fn ratios() {
    let folder = Folder::new("speed");
    let mut at = [0.0, 0.0];
    let mut frames = Vec::new();
    for number in 0..FRAMES {
        frames.push(frame(number, at[0], at[1]));
        let step = [[5.3, 0.4], [0.2, 0.0], [-7.1, 2.6], [0.0, 0.0], [11.4, -3.2]][number % 5];
        at = [at[0] + step[0], at[1] + step[1]];
    }
    let mut clip = format!("YUV4MPEG2 W{WIDTH} H{HEIGHT} F50:1 Cmono\n").into_bytes();
    for frame in &frames {
        clip.extend(b"FRAME\n");
        clip.extend(frame.iter().map(|&pel| pel as u8));
    }
    folder.write("clip.y4m", &clip);
    let mut before = searches(&frames);
    println!("one search: {:.2} ms", 1000.0 * before / (FRAMES - 1) as f64);
    let ways =
        [&["--threads", "1"][..], &["--threads", "1", "--fast"], &["--threads", "2"], &["--threads", "2", "--fast"]];
    for words in ways {
        let [clock, processor, busiest, memory] = tracked(&folder, words);
        // what else the machine does slows both
        let after = searches(&frames);
        println!(
            "{:20} {:.2} searches of processor time a pair, {clock:.2} s by the clock, {busiest:.2} s of the busiest thread, \
             {memory:.1} MB",
            words.join(" "),
            2.0 * processor / (before + after)
        );
        before = after;
    }
}
