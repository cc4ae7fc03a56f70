//! Footage drawn here, with its true motion and the answer that is wanted.

mod drawn;

use drawn::{Motion, Scene, alike, blurred, brighter, noisy};
use track::{Answer, Frame, How, Options, Status, Warning};

const WIDTH: usize = 320;
const HEIGHT: usize = 240;

fn measured(first: &[u16], second: &[u16]) -> Answer {
    told(first, second, &Options::default())
}

fn told(first: &[u16], second: &[u16], options: &Options<'_>) -> Answer {
    let [first, second] = [first, second].map(|pels| Frame { pels, width: WIDTH, height: HEIGHT, most: 255 });
    track::measure(&first, &second, options).expect("the frames are alike")
}

/// The motion is known, and within so many pels of the truth.
fn near(answer: &Answer, truth: Motion, pels: f64) {
    assert!(answer.status.is_known() && answer.warnings.is_empty(), "{}", shown(answer));
    let error = truth.apart(&answer.model, WIDTH, HEIGHT);
    assert!(error <= pels, "off by {error}: {}", shown(answer));
}

fn shown(answer: &Answer) -> String {
    let short = Answer { words: Vec::new(), ..answer.clone() };
    format!("{short:?}")
}

#[test]
fn a_pan_is_measured() {
    for (seed, (right, down)) in [(3.0, 0.0), (-7.4, 2.2), (0.6, -12.7), (19.5, 14.25)].into_iter().enumerate() {
        let (scene, truth) = (Scene::load(seed as u32), Motion::pan(right, down));
        let answer = measured(&scene.frame(Motion::NONE), &scene.frame(truth));
        near(&answer, truth, 0.08);
        assert_eq!((answer.status, answer.blocks), (Status::Measured, 300));
        assert!((answer.right - right).abs() < 0.07 && (answer.down - down).abs() < 0.07);
        assert!((answer.zoom - 1.0).abs() < 0.001 && answer.angle.abs() < 0.05);
    }
}

#[test]
fn a_turn_and_a_zoom_are_measured() {
    for (seed, (zoom, degrees)) in [(1.02, 0.0), (0.985, 1.5), (1.0, -2.0)].into_iter().enumerate() {
        let (scene, truth) = (Scene::load(seed as u32), Motion::turn(zoom, degrees, 2.3, -1.2));
        let answer = measured(&scene.frame(Motion::NONE), &scene.frame(truth));
        near(&answer, truth, 0.08);
        assert!((answer.zoom - zoom).abs() < 0.001 && (answer.angle - degrees).abs() < 0.05, "{}", shown(&answer));
    }
}

#[test]
fn a_creep_is_no_standstill() {
    for (seed, (right, down)) in [(0.1, 0.0), (0.19, 0.0), (-0.2, 0.15), (0.0, 0.3)].into_iter().enumerate() {
        let (scene, truth) = (Scene::load(seed as u32), Motion::pan(right, down));
        let answer = measured(&noisy(&scene.frame(Motion::NONE), 7, 1.0), &noisy(&scene.frame(truth), 8, 1.0));
        near(&answer, truth, 0.06);
        assert_eq!(answer.status, Status::Measured, "{}", shown(&answer));
    }
}

#[test]
fn a_standstill_is_said() {
    let frame = Scene::load(1).frame(Motion::NONE);
    let answer = measured(&frame, &frame);
    assert_eq!(answer.status, Status::Still, "{}", shown(&answer));
    assert_eq!(answer.shares.still, 1.0);
    let answer = measured(&noisy(&frame, 1, 3.0), &noisy(&frame, 2, 3.0));
    assert_eq!(answer.status, Status::Still, "{}", shown(&answer));
    near(&answer, Motion::NONE, 1.0 / 16.0);
}

#[test]
fn rails_at_the_edges_do_not_hide_the_belt() {
    let (scene, rails, truth) = (Scene::load(3), Scene::load(4), Motion::pan(-6.5, 0.75));
    let with_rails = |motion: Motion| {
        let (belt, still) = (scene.frame(motion), rails.frame(Motion::NONE));
        let edge = |i: usize| !(30..HEIGHT - 30).contains(&(i / WIDTH));
        (0..WIDTH * HEIGHT).map(|i| if edge(i) { still[i] } else { belt[i] }).collect::<Vec<u16>>()
    };
    let frames = (with_rails(Motion::NONE), with_rails(truth));
    let answer = measured(&frames.0, &frames.1);
    near(&answer, truth, 0.06);
    assert!(answer.shares.still > 0.1 && answer.shares.still < 0.35, "{}", shown(&answer));
    let commonest = answer.shares.commonest.expect("most blocks moved");
    assert!((commonest.motion.u + 6.5).abs() < 0.2 && commonest.share > 0.5, "{commonest:?}");
    // the belt left out, the rails stand still
    let mask: Vec<bool> = (0..300).map(|block| (1..14).contains(&(block / 20))).collect();
    let answer = told(&frames.0, &frames.1, &Options { mask: Some(&mask), fast: false });
    assert_eq!(answer.status, Status::Still, "{}", shown(&answer));
    assert_eq!(answer.shares.still, 1.0);
}

#[test]
fn a_flat_belt_with_a_few_pieces_is_measured_by_them() {
    let (scene, truth) = (Scene::pieces(5), Motion::pan(8.25, -1.5));
    let answer = measured(&noisy(&scene.frame(Motion::NONE), 1, 1.0), &noisy(&scene.frame(truth), 2, 1.0));
    near(&answer, truth, 0.1);
    assert!(answer.usable < 200, "{}", shown(&answer));
}

#[test]
fn frames_of_one_value_are_flat() {
    let (flat, frame) = (vec![9; WIDTH * HEIGHT], Scene::load(1).frame(Motion::NONE));
    for (first, second) in [(&flat, &flat), (&flat, &frame), (&frame, &flat)] {
        let answer = measured(first, second);
        assert_eq!((answer.status, answer.blocks, answer.searches), (Status::Flat, 300, 0.0));
    }
    // an empty belt under noise shows nothing either
    let answer = measured(&noisy(&flat, 1, 2.0), &noisy(&flat, 2, 2.0));
    assert_eq!(answer.status, Status::Unexplained, "{}", shown(&answer));
}

#[test]
fn a_part_that_moves_otherwise_is_left_aside() {
    let (scene, other, truth) = (Scene::load(6), Scene::load(7), Motion::pan(4.5, 1.25));
    let with_part = |motion: Motion, part: Motion| {
        let (belt, part) = (scene.frame(motion), other.frame(part));
        let inside = |i: usize| (40..200).contains(&(i % WIDTH)) && (60..180).contains(&(i / WIDTH));
        (0..WIDTH * HEIGHT).map(|i| if inside(i) { part[i] } else { belt[i] }).collect::<Vec<u16>>()
    };
    let first = with_part(Motion::NONE, Motion::NONE);
    near(&measured(&first, &with_part(truth, Motion::pan(-5.0, 3.0))), truth, 0.06);
    // the part alone moves
    let answer = measured(&first, &with_part(Motion::NONE, Motion::pan(-5.0, 3.0)));
    assert_eq!(answer.status, Status::Still, "{}", shown(&answer));
    let commonest = answer.shares.commonest.expect("a part moved");
    assert!(answer.shares.still > 0.6 && (commonest.motion.u + 5.0).abs() < 0.2 && commonest.share > 0.1);
}

#[test]
fn two_halves_that_part_are_not_one_motion() {
    let (left, right) = (Scene::load(1), Scene::load(2));
    let halves = |by: f64| {
        let (left, right) = (left.frame(Motion::pan(-by, 0.0)), right.frame(Motion::pan(by, 0.0)));
        (0..WIDTH * HEIGHT).map(|i| if i % WIDTH < WIDTH / 2 { left[i] } else { right[i] }).collect::<Vec<u16>>()
    };
    let answer = measured(&halves(0.0), &halves(5.0));
    assert_eq!(answer.status, Status::Unexplained, "{}", shown(&answer));
    assert!(answer.warnings.contains(&Warning::TwoMotions), "{}", shown(&answer));
}

#[test]
fn light_blur_and_noise_are_borne() {
    let (scene, truth) = (Scene::load(8), Motion::turn(1.01, 0.5, -5.3, 3.4));
    let (first, second) = (scene.frame(Motion::NONE), scene.frame(truth));
    near(&measured(&first, &brighter(&second, 0.6, 10.0)), truth, 0.08);
    near(&measured(&brighter(&first, 0.8, 0.0), &brighter(&second, 1.0, 50.0)), truth, 0.1);
    near(&measured(&blurred(&first, WIDTH, 2), &blurred(&second, WIDTH, 2)), truth, 0.1);
    near(&measured(&noisy(&first, 1, 6.0), &noisy(&second, 2, 6.0)), truth, 0.1);
}

#[test]
fn motion_beyond_the_range_is_reached() {
    for (seed, (right, down)) in [(31.5, 0.0), (-40.0, 12.0), (3.0, -48.25), (50.0, 20.0)].into_iter().enumerate() {
        let (scene, truth) = (Scene::load(seed as u32), Motion::pan(right, down));
        let answer = measured(&scene.frame(Motion::NONE), &scene.frame(truth));
        near(&answer, truth, 0.1);
        assert_eq!((answer.status, answer.how), (Status::Measured, How::Shifted), "{}", shown(&answer));
    }
}

#[test]
fn a_cut_to_another_picture_is_unexplained() {
    for seed in 0..4 {
        let (first, second) = (Scene::load(seed), Scene::load(seed + 20));
        let answer = measured(&first.frame(Motion::NONE), &second.frame(Motion::NONE));
        assert_eq!(answer.status, Status::Unexplained, "{}", shown(&answer));
        assert!(!answer.warnings.is_empty());
    }
}

#[test]
fn stripes_do_not_tell_the_motion_along_them() {
    let stripes = |by: usize| -> Vec<u16> {
        (0..WIDTH * HEIGHT).map(|i| (128.0 + 80.0 * ((i % WIDTH + by) as f64 / 4.0).sin()) as u16).collect()
    };
    let answer = measured(&stripes(0), &stripes(3));
    assert_eq!(answer.status, Status::Unexplained, "{}", shown(&answer));
}

#[test]
fn the_short_way_is_one_search() {
    let (scene, truth) = (Scene::load(2), Motion::pan(-7.5, 2.25));
    let (first, second) = (scene.frame(Motion::NONE), scene.frame(truth));
    let fast = Options { fast: true, mask: None };
    let answer = told(&first, &second, &fast);
    near(&answer, truth, 0.05);
    assert_eq!((answer.searches, answer.words.len()), (1.0, 300));
    let answer = told(&first, &scene.frame(Motion::pan(60.0, 0.0)), &fast);
    assert_eq!((answer.status, answer.searches), (Status::Unexplained, 1.0), "{}", shown(&answer));
}

#[test]
fn the_same_frames_have_the_same_answer() {
    let scene = Scene::load(9);
    let frames = (scene.frame(Motion::NONE), scene.frame(Motion::turn(1.01, 1.0, 3.0, 4.0)));
    assert!(alike(&measured(&frames.0, &frames.1), &measured(&frames.0, &frames.1)));
}

#[test]
fn deep_pictures_are_measured_as_well() {
    let (scene, truth) = (Scene::load(2), Motion::pan(-7.5, 2.25));
    let deep = |motion: Motion| scene.frame(motion).iter().map(|pel| pel * 257).collect::<Vec<u16>>();
    let pels = [deep(Motion::NONE), deep(truth)];
    let [first, second] = [&pels[0], &pels[1]].map(|pels| Frame { pels, width: WIDTH, height: HEIGHT, most: 65_535 });
    let answer = track::measure(&first, &second, &Options::default()).unwrap();
    near(&answer, truth, 0.05);
    let plain = measured(&scene.frame(Motion::NONE), &scene.frame(truth));
    assert!(alike(&answer, &plain), "{} {}", shown(&answer), shown(&plain));
}
