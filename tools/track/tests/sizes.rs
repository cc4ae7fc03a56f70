//! Frames of any sides and any values: an answer or a refusal, never a panic.

use track::{Answer, Detail, Frame, Options, Planes, Refused, Status};

/// Values of a kind: noise, black and white, all but flat, a slope that wraps.
fn pels(kind: usize, width: usize, height: usize, seed: u32) -> Vec<u16> {
    let mut state = seed;
    let pel = |i: usize| {
        state = state.wrapping_mul(1_664_525).wrapping_add(1_013_904_223);
        match kind {
            0 => (state >> 16) as u16,
            1 if (i / 3 + i / width.max(1) / 5) % 2 == 0 => 0,
            1 => 65_535,
            2 => u16::from(i == 5),
            _ => (i * 37 + seed as usize) as u16,
        }
    };
    (0..width * height).map(pel).collect()
}

fn measured(kind: usize, width: usize, height: usize, most: u16) -> Answer {
    let pels = [pels(kind, width, height, 1), pels(kind, width, height, 2)];
    let [first, second] = [&pels[0], &pels[1]].map(|pels| Frame { pels, width, height, most });
    track::measure(&first, &second, &Options::default()).expect("the frames are alike")
}

#[test]
fn any_sides_and_values_have_an_answer() {
    let sides = [0, 1, 2, 15, 16, 17, 31, 33, 64, 130];
    for (i, &width) in sides.iter().enumerate() {
        for (j, &height) in sides.iter().enumerate() {
            let (kind, most) = ((i + j) % 4, [0, 1, 255, 65_535][(i + 2 * j) % 4]);
            let answer = measured(kind, width, height, most);
            let blocks = (width / 16) * (height / 16);
            assert_eq!(answer.status == Status::NoBlocks, blocks == 0, "{width}×{height}");
            assert!(answer.words.len() == blocks || answer.status == Status::Flat);
            let numbers =
                answer.model.numbers.into_iter().chain([answer.right, answer.down, answer.zoom, answer.angle]);
            assert!(numbers.into_iter().all(f64::is_finite) && answer.score.is_finite(), "{width}×{height}");
        }
    }
}

#[test]
fn the_longest_sides_have_an_answer() {
    for (kind, (width, height)) in [(1024, 16), (16, 1024), (1024, 17), (1024, 1024)].into_iter().enumerate() {
        assert_eq!(measured(kind, width, height, 65_535).blocks, (width / 16) * (height / 16));
    }
}

#[test]
fn a_mask_may_leave_nothing() {
    let pels = [pels(0, 96, 96, 1), pels(0, 96, 96, 1)];
    let [first, second] = [&pels[0], &pels[1]].map(|pels| Frame { pels, width: 96, height: 96, most: 65_535 });
    let options = |mask| Options { mask: Some(mask), fast: false };
    let answer = track::measure(&first, &second, &options(&[true; 36])).unwrap();
    assert_eq!((answer.status, answer.usable, answer.agree), (Status::NoBlocks, 0, 0));
    let answer = track::measure(&first, &second, &options(&[false; 36])).unwrap();
    assert_eq!((answer.status, answer.usable), (Status::Still, 36));
    let refused = track::measure(&first, &second, &options(&[true; 35]));
    assert_eq!(refused, Err(Refused::Mask { given: 35, wanted: 36 }));
}

#[test]
fn frames_that_do_not_fit_are_refused() {
    let pels = vec![1; 1025 * 16];
    let frame = |width, height, count| Frame { pels: &pels[..count], width, height, most: 255 };
    let said = |first: Frame<'_>, second: Frame<'_>| track::measure(&first, &second, &Options::default()).unwrap_err();
    assert_eq!(said(frame(1025, 16, 1025 * 16), frame(1025, 16, 1025 * 16)), Refused::TooLarge);
    assert_eq!(said(frame(16, 1025, 1025 * 16), frame(16, 1025, 1025 * 16)), Refused::TooLarge);
    assert_eq!(said(frame(32, 16, 512), frame(16, 32, 512)), Refused::Unlike);
    assert_eq!(said(frame(32, 16, 512), frame(32, 16, 511)), Refused::Pels { given: 511, wanted: 512 });
    let sentences = [Refused::TooLarge, Refused::Unlike, Refused::Mask { given: 1, wanted: 2 }].map(|r| r.to_string());
    assert!(sentences.iter().all(|sentence| sentence.len() > 20));
}

/// Words that were searched already, and frames whose light was taken away already, have the same answer.
#[test]
fn nothing_is_done_twice() {
    let pels = [0, 1].map(|kind| pels(kind, 96, 96, 255));
    let [first, second] = [&pels[0], &pels[1]].map(|pels| Frame { pels, width: 96, height: 96, most: 255 });
    let answer = track::measure(&first, &second, &Options::default()).unwrap();
    let details = [&first, &second].map(|frame| Detail::of(frame).unwrap());
    let planes = Planes::between(&details[0], &details[1]).unwrap();
    assert!(!answer.words.is_empty() && planes.first().len() == 96 * 96);
    assert_eq!(planes.measure(Some(&answer.words), &Options::default()), Ok(answer.clone()));
    let refused = planes.measure(Some(&answer.words[1..]), &Options::default());
    assert_eq!(refused, Err(Refused::Words { given: 35, wanted: 36 }));
}
