//! Every row that each call has, its order among the rows, and that a refused call leaves what it was lent.

mod frames;

use belt::Refusal::{self, *};
use belt::{
    Buffers, ClassSet, FIBRE, FILM, Fitted, Form, IDENTITIES, Kind, Length, METAL, Model, MotionSample, Shear,
    StoredModel,
};
use frames::{Handed, guarded, noisy_plane};

/// Words that rise, at zero motion.
fn words(count: usize) -> Vec<u32> {
    (0..count as u32).map(|i| i << 20 | 223 << 11 | 223 << 2).collect()
}

#[test]
fn the_table_is_that_of_the_rules() {
    let numbers: Vec<u32> = Refusal::TABLE.iter().map(|row| row.0).collect();
    assert_eq!(numbers, [1, 18, 2, 4, 19, 5, 14, 7, 8, 12, 13, 3, 15, 17, 6, 16, 9, 10, 11]);
    for row in [TooLarge, TooFar, NoSuchCode, NoClass, NoSuchSlot, OffGrid, PriorOut, NotRising, NotHeld, Singular] {
        assert_eq!(row.to_string(), format!("{}: {}", row.number(), row.condition()));
    }
    for row in [TooFew, ShutterClosed, NotFinite, EndsFirst, WrongCheck, WrongBlock] {
        assert!(Refusal::TABLE.contains(&(row.number(), row.condition())));
    }
    let rules = include_str!("../../../docs/RULES.md");
    for (number, condition) in Refusal::TABLE {
        assert!(rules.contains(&format!("| {number} | {condition} |")), "row {number}");
    }
}

fn short(name: &'static str, given: usize, wanted: usize) -> Refusal {
    TooShort(Length { name, given, wanted })
}

fn wrong(name: &'static str, given: usize, wanted: usize) -> Refusal {
    WrongLength(Length { name, given, wanted })
}

/// A job, its room, and a change of either.
type Change = fn(&mut Handed, &mut Buffers);

fn room(buffers: &mut Buffers) {
    let needed = Buffers::new(48, 32);
    buffers.input_half.truncate(needed.input_half.len());
    buffers.ref_half.truncate(needed.ref_half.len());
    buffers.words.truncate(needed.words.len());
    buffers.blocks.truncate(needed.blocks.len());
    buffers.header.truncate(needed.header.len());
}

#[test]
fn job() {
    let changes: Vec<(Refusal, Change)> = vec![
        (TooLarge, |h, _| h.width = 1025),
        (TooLarge, |h, _| h.height = 1025),
        (TooLarge, |h, _| (h.width, h.height) = (usize::MAX, usize::MAX)),
        (wrong("input", 1536, 1504), |h, _| h.width = 47),
        (wrong("input", 1535, 1536), |h, _| h.input.truncate(48 * 32 - 1)),
        (wrong("input", 1537, 1536), |h, _| h.input.push(0)),
        (wrong("reference", 1535, 1536), |h, _| h.reference.truncate(48 * 32 - 1)),
        (wrong("reference", 0, 1536), |h, _| h.reference.clear()),
        (wrong("classes", 5, 6), |h, _| h.classes.truncate(5)),
        (wrong("classes", 7, 6), |h, _| h.classes.push(0)),
        (wrong("types", 5, 6), |h, _| h.types.truncate(5)),
        (wrong("types", 7, 6), |h, _| h.types.push(0)),
        (wrong("models", 5, 6), |h, _| h.models.truncate(5)),
        (wrong("prior", 6, 7), |h, _| h.prior.truncate(6)),
        (NoSuchCode, |h, _| h.classes[5] = 5),
        (NoSuchCode, |h, _| h.settings.gm_type = 0),
        (NoSuchCode, |h, _| h.settings.gm_type = 4),
        (NoSuchCode, |h, _| h.settings.flag = 2),
        (NoSuchCode, |h, _| h.settings.flag = 255),
        (NoSuchCode, |h, _| h.settings.trim = 2),
        (NoSuchCode, |h, _| h.settings.trim = 255),
        (NoSuchCode, |h, _| h.settings.elect = 2),
        (NoSuchCode, |h, _| h.settings.elect = 255),
        (NoSuchCode, |h, _| h.types[5] = 4),
        (NoSuchCode, |h, _| h.settings.set = ClassSet::of(&[FIBRE, 5])),
        (NoSuchCode, |h, _| h.settings.set = ClassSet::from_bits(255)),
        (NoClass, |h, _| h.settings.set = ClassSet::of(&[])),
        (NoSuchSlot, |h, _| h.settings.reference = 0),
        (NoSuchSlot, |h, _| h.settings.reference = 8),
        (StartOver, |h, _| h.settings.start = 8),
        (StartOver, |h, _| h.settings.start = usize::MAX),
        (OffGrid, |h, _| h.models[0].0[0] = 1),
        (OffGrid, |h, _| h.models[5].0[5] = 65538),
        (OffGrid, |h, _| (h.types[1], h.models[1].0[2]) = (3, 65537)),
        (OffGrid, |h, _| (h.types[1], h.models[1].0[3]) = (2, 2)),
        (PriorOut, |h, _| h.prior[0].0[3] = 8193),
        (PriorOut, |h, _| h.prior[0].0[4] = -8193),
        (PriorOut, |h, _| h.prior[6].0[0] = 4_194_305),
        (PriorOut, |h, _| h.prior[6].0[1] = i32::MIN),
        (PriorOut, |h, _| h.prior[0].0[2] = 65536 + 8193),
        (PriorOut, |h, _| h.prior[0].0[5] = 65536 - 8193),
        (short("input_half", 383, 384), |_, b| b.input_half.truncate(383)),
        (short("ref_half", 383, 384), |_, b| b.ref_half.truncate(383)),
        (short("words", 5, 6), |_, b| b.words.truncate(5)),
        (short("blocks", 511, 512), |_, b| b.blocks.truncate(511)),
        (short("header", 124, 125), |_, b| b.header.truncate(124)),
        (short("header", 0, 125), |_, b| b.header.clear()),
        (TooFew, |h, _| (h.settings.gm_type, h.settings.trim) = (3, 1)),
        (TooFew, |h, _| (h.settings.set, h.settings.trim) = (ClassSet::of(&[FILM]), 1)),
        (ShutterClosed, |h, _| h.settings.frame = 0),
    ];
    let handed = Handed::new(noisy_plane(48, 32), noisy_plane(48, 32), 48, 32, 1);
    let mut exact = guarded(48, 32);
    room(&mut exact);
    assert!(belt::job(&handed.task(), &mut exact.clone().lend()).is_ok(), "the unchanged job is accepted");
    for (i, (row, change)) in changes.iter().enumerate() {
        let (mut handed, mut before) = (handed.clone(), exact.clone());
        change(&mut handed, &mut before);
        let mut after = before.clone();
        assert_eq!(belt::job(&handed.task(), &mut after.lend()), Err(*row), "change {i}");
        assert_eq!(after, before, "change {i} leaves the buffers");
    }
    // of two rows that both hold, the earlier in the table
    for (i, (first, change)) in changes.iter().enumerate() {
        for (second, other) in changes[i..].iter().filter(|(second, _)| second.number() != first.number()) {
            let (mut handed, mut before) = (handed.clone(), exact.clone());
            other(&mut handed, &mut before);
            change(&mut handed, &mut before);
            let mut after = before.clone();
            let answer = belt::job(&handed.task(), &mut after.lend()).map_err(Refusal::number);
            assert_eq!(answer, Err(first.number()), "change {i} and then {second}");
            assert_eq!(after, before);
        }
    }
}

#[test]
fn a_singular_job_leaves_the_search_alone_behind() {
    for gm_type in [2, 3] {
        let handed = Handed::new(noisy_plane(16, 16), noisy_plane(16, 16), 16, 16, gm_type);
        let before = guarded(16, 16);
        let mut after = before.clone();
        assert_eq!(belt::job(&handed.task(), &mut after.lend()), Err(Singular));
        let mut search = before.clone();
        let found = belt::collect_motion_samples(
            &handed.input,
            &handed.reference,
            16,
            16,
            &handed.classes,
            &mut search.input_half,
            &mut search.ref_half,
            &mut search.words,
        );
        assert_eq!(found.map(|found| found.samples), Ok(1));
        assert_ne!(search, before);
        assert_eq!(after, search);
        // with no samples row 6 touches nothing
        let handed = Handed::new(noisy_plane(15, 16), noisy_plane(15, 16), 15, 16, gm_type);
        let mut after = before.clone();
        assert_eq!(belt::job(&handed.task(), &mut after.lend()), Err(Singular));
        assert_eq!(after, before);
    }
}

#[test]
fn search() {
    let plane = noisy_plane(48, 32);
    let call = |width, pels: usize, ref_pels: usize, classes: &[u8], rooms: [usize; 3], row| {
        let (mut halves, mut words) = ([vec![9u16; rooms[0]], vec![8; rooms[1]]], vec![7u32; rooms[2]]);
        let [input_half, ref_half] = &mut halves;
        let (input, reference) = (&plane[..pels], &plane[..ref_pels]);
        let found =
            belt::collect_motion_samples(input, reference, width, 32, classes, input_half, ref_half, &mut words);
        assert_eq!(found.map(|found| found.samples), row);
        if row.is_err() {
            assert_eq!((halves, words), ([vec![9; rooms[0]], vec![8; rooms[1]]], vec![7; rooms[2]]));
        }
    };
    let enough = [384, 384, 6];
    call(48, 1536, 1536, &[FILM; 6], enough, Ok(6));
    call(1025, 1536, 1536, &[0; 6], enough, Err(TooLarge));
    call(48, 1535, 1536, &[0; 6], enough, Err(wrong("input", 1535, 1536)));
    call(48, 1536, 1535, &[0; 6], enough, Err(wrong("reference", 1535, 1536)));
    call(48, 1536, 1536, &[0; 5], enough, Err(wrong("classes", 5, 6)));
    call(48, 1536, 1536, &[0, 0, 0, 0, 0, 5], enough, Err(NoSuchCode));
    call(48, 1536, 1536, &[0; 6], [383, 384, 6], Err(short("input_half", 383, 384)));
    call(48, 1536, 1536, &[0; 6], [384, 383, 6], Err(short("ref_half", 383, 384)));
    call(48, 1536, 1536, &[0; 6], [384, 384, 5], Err(short("words", 5, 6)));
}

#[test]
fn fits_and_scores() {
    let many = words(4097);
    for fit in [belt::fit_translation, belt::fit_rotzoom, belt::fit_affine] {
        assert_eq!(fit(&many), Err(TooLarge));
        assert!(fit(&many[..4096]).is_ok());
    }
    let none = belt::fit_translation(&[]).unwrap();
    assert!(none.numbers[0].is_nan() && none.numbers[1].is_nan());
    for few in [&[][..], &many[..1]] {
        assert_eq!(belt::fit_rotzoom(few), Err(Singular));
        assert_eq!(belt::fit_affine(few), Err(Singular));
    }
    let samples: Vec<_> = many.iter().map(|&word| belt::MotionSample::of_word(word)).collect();
    for fit in [belt::fit_translation_samples, belt::fit_rotzoom_samples, belt::fit_affine_samples] {
        assert_eq!(fit(&samples), Err(TooLarge));
    }
    assert_eq!(belt::mean_sq_residual_samples(&Model::IDENTITY, &samples), Err(TooLarge));
    assert_eq!(belt::mean_sq_residual_samples(&Model::IDENTITY, &[]), Ok(0.0));
    assert_eq!(belt::fit_affine_samples(&samples[..1]), Err(Singular));
    assert_eq!(belt::mean_sq_residual(&Model::IDENTITY, &many), Err(TooLarge));
    assert_eq!(belt::mean_sq_residual(&Model::IDENTITY, &[]), Ok(0.0));
    assert_eq!(belt::mean_sq_residual(&Model([65536, 0, 65536, 0, 0, 65536]), &many[..3]), Ok(1.0));

    let fitted = |gm_type| Fitted { gm_type, numbers: [0.0, 0.0, 1.0, 0.0, 0.0, 1.0] };
    assert_eq!(belt::quantize_model(&fitted(3), 1, &many), Err(TooLarge));
    assert_eq!(belt::quantize_model(&fitted(0), 1, &many[..9]), Err(NoSuchCode));
    assert_eq!(belt::quantize_model(&fitted(4), 1, &many[..9]), Err(NoSuchCode));
    assert_eq!(belt::quantize_model(&fitted(3), 2, &many[..9]), Err(NoSuchCode));
    assert_eq!(belt::quantize_model(&fitted(4), 2, &many), Err(TooLarge));
    for gm_type in 1..=3 {
        assert_eq!(belt::quantize_model(&fitted(gm_type), 1, &many[..9]), Ok(Model::IDENTITY));
    }
}

#[test]
fn fits_after_trimming() {
    let many = words(4097);
    assert_eq!(belt::fit_trimmed(1, &many), Err(TooLarge));
    assert_eq!(belt::fit_trimmed(0, &many), Err(TooLarge));
    assert_eq!(belt::fit_trimmed(0, &[]), Err(NoSuchCode));
    assert_eq!(belt::fit_trimmed(4, &many[..9]), Err(NoSuchCode));
    assert_eq!(belt::quantize_trimmed(1, 2, &[]), Err(NoSuchCode));
    for (gm_type, least) in [(1, 4), (2, 6), (3, 8)] {
        assert_eq!(belt::fit_trimmed(gm_type, &many[..least - 1]), Err(TooFew));
        assert_eq!(belt::quantize_trimmed(gm_type, 1, &many[..least - 1]), Err(TooFew));
        let one_place = vec![many[0]; least];
        assert_eq!(belt::fit_trimmed(gm_type, &one_place).is_ok(), gm_type == 1);
        assert_eq!(belt::quantize_trimmed(gm_type, 1, &one_place).err(), (gm_type > 1).then_some(Singular));
    }
    // the samples that stay have no fit of six numbers
    let far = [423, 23, 423, 23].into_iter().zip(3u32..).map(|(u, column)| 1 << 26 | column << 20 | 223 << 11 | u << 2);
    let lined: Vec<u32> = many[..10].iter().copied().chain(far).collect();
    assert!(belt::fit_affine(&lined).is_ok() && belt::fit_trimmed(2, &lined).is_ok());
    assert_eq!(belt::fit_trimmed(3, &lined), Err(Singular));
    let samples: Vec<_> = lined.iter().map(|&word| belt::MotionSample::of_word(word)).collect();
    assert_eq!(belt::fit_trimmed_samples(2, &samples), belt::fit_trimmed(2, &lined));
    assert_eq!(belt::quantize_trimmed_samples(2, 1, &samples), belt::quantize_trimmed(2, 1, &lined));
    assert_eq!(belt::fit_trimmed_samples(3, &samples), Err(Singular));
}

#[test]
fn fits_of_samples_after_trimming() {
    let moving = |count: usize, u| {
        let mut samples = vec![belt::MotionSample { x: 0.5, y: -0.5, u: 0.0, v: 0.0 }; count];
        samples[0].u = u;
        samples
    };
    assert_eq!(belt::fit_trimmed_samples(0, &moving(4097, 0.0)), Err(TooLarge));
    assert_eq!(belt::quantize_trimmed_samples(1, 2, &moving(4097, 0.0)), Err(TooLarge));
    assert_eq!(belt::fit_trimmed_samples(4, &[]), Err(NoSuchCode));
    assert_eq!(belt::quantize_trimmed_samples(1, 2, &[]), Err(NoSuchCode));
    for (gm_type, least) in [(1, 4), (2, 6), (3, 8)] {
        assert_eq!(belt::fit_trimmed_samples(gm_type, &moving(least - 1, f64::NAN)), Err(TooFew));
        assert_eq!(belt::quantize_trimmed_samples(gm_type, 1, &moving(least - 1, 0.0)), Err(TooFew));
        assert_eq!(belt::fit_trimmed_samples(gm_type, &moving(least, 0.0)).is_ok(), gm_type == 1);
    }
    assert_eq!(belt::fit_trimmed_samples(1, &moving(4, 1e150)).map(|trimmed| trimmed.used), Ok(4));
    for far in [1e200, f64::INFINITY, f64::NAN] {
        assert_eq!(belt::fit_trimmed_samples(1, &moving(4, far)), Err(NotFinite));
        assert_eq!(belt::quantize_trimmed_samples(1, 0, &moving(4096, far)), Err(NotFinite));
    }
}

/// The rows of a job that elects: those that type and trim code would bring about are gone, the rest stay.
#[test]
fn a_job_that_elects() {
    let mut handed = Handed::new(noisy_plane(48, 32), noisy_plane(48, 32), 48, 32, 1);
    handed.settings.elect = 1;
    let before = guarded(48, 32);
    let changes: [(Result<(), Refusal>, fn(&mut Handed)); 13] = [
        (Ok(()), |_| {}),
        (Ok(()), |h| h.settings.gm_type = 0),
        (Ok(()), |h| h.settings.gm_type = 4),
        (Ok(()), |h| h.settings.trim = 2),
        (Ok(()), |h| (h.settings.gm_type, h.settings.trim) = (3, 1)),
        (Err(NoSuchCode), |h| h.settings.flag = 2),
        (Err(NoSuchCode), |h| h.classes[5] = 5),
        (Err(NoSuchCode), |h| h.types[5] = 4),
        (Err(NoSuchSlot), |h| h.settings.reference = 8),
        (Err(ShutterClosed), |h| h.settings.frame = 0),
        (Ok(()), |h| h.settings.set = ClassSet::of(&[FILM])),
        (Err(NoSuchCode), |h| h.settings.set = ClassSet::of(&[255])),
        (Err(NoClass), |h| (h.settings.set, h.settings.reference) = (ClassSet::of(&[]), 0)),
    ];
    for (i, (answer, change)) in changes.into_iter().enumerate() {
        let (mut handed, mut after) = (handed.clone(), before.clone());
        change(&mut handed);
        assert_eq!(belt::job(&handed.task(), &mut after.lend()).map(|_| ()), answer, "change {i}");
        assert_eq!(after == before, answer.is_err(), "change {i}");
    }
}

/// Every call by class has rows 1, 2, 4 and 19 of its own list, in this order, and judges all of it, named or not.
#[test]
fn calls_by_class() {
    type Call = (&'static str, fn(ClassSet, &[u32], &[u8]) -> Result<(), Refusal>);
    fn unmoved(gm_type: u8) -> Fitted {
        Fitted { gm_type, numbers: [0.0, 0.0, 1.0, 0.0, 0.0, 1.0] }
    }
    let calls: [Call; 6] = [
        ("fit", |set, words, classes| belt::fit_by_class(set, 1, words, classes).map(|_| ())),
        ("quantize", |set, words, classes| belt::quantize_by_class(set, &unmoved(1), 1, words, classes).map(|_| ())),
        ("score", |set, words, classes| belt::score_by_class(set, &Model::IDENTITY, words, classes).map(|_| ())),
        ("fit_trimmed", |set, words, classes| belt::fit_trimmed_by_class(set, 1, words, classes).map(|_| ())),
        ("quantize_trimmed", |set, words, classes| {
            belt::quantize_trimmed_by_class(set, 1, 1, words, classes).map(|_| ())
        }),
        ("elect", |set, words, classes| belt::elect_by_class(set, 1, words, classes).map(|_| ())),
    ];
    let (many, film) = (words(4097), vec![FILM; 4097]);
    let mut last_out = film.clone();
    last_out[8] = 5;
    let (none, over, fibre) = (ClassSet::of(&[]), ClassSet::of(&[FILM, 200]), ClassSet::of(&[FIBRE]));
    for (name, call) in calls {
        assert_eq!(call(none, &many, &film[..9]), Err(TooLarge), "{name}");
        for classes in [&film[..8], &film[..10], &[]] {
            assert_eq!(call(none, &many[..9], classes), Err(wrong("classes", classes.len(), 9)), "{name}");
            assert_eq!(call(over, &many[..9], classes), Err(wrong("classes", classes.len(), 9)), "{name}");
        }
        assert_eq!(call(none, &[], &film[..1]), Err(wrong("classes", 1, 0)), "{name}");
        for set in [none, over, fibre] {
            assert_eq!(call(set, &many[..9], &last_out[..9]), Err(NoSuchCode), "{name}");
        }
        assert_eq!(call(over, &many[..9], &film[..9]), Err(NoSuchCode), "{name}");
        assert_eq!(call(none, &many[..9], &film[..9]), Err(NoClass), "{name}");
        assert_eq!(call(none, &[], &[]), Err(NoClass), "{name}");
        for set in [ClassSet::of(&[FILM]), ClassSet::ALL] {
            assert_eq!(call(set, &many[..4096], &film[..4096]), Ok(()), "{name}");
        }
        // with no sample of the class at all
        let trims = name.contains("trimmed");
        assert_eq!(call(fibre, &many[..9], &film[..9]), if trims { Err(TooFew) } else { Ok(()) }, "{name}");
    }
    // the call's own codes are row 4 too, so before 19
    let (words, classes) = (&many[..9], &film[..9]);
    for set in [none, ClassSet::ALL] {
        for gm_type in [0, 4] {
            assert_eq!(belt::fit_by_class(set, gm_type, words, classes), Err(NoSuchCode));
            assert_eq!(belt::quantize_by_class(set, &unmoved(gm_type), 1, words, classes), Err(NoSuchCode));
            assert_eq!(belt::fit_trimmed_by_class(set, gm_type, words, classes), Err(NoSuchCode));
            assert_eq!(belt::quantize_trimmed_by_class(set, gm_type, 1, words, classes), Err(NoSuchCode));
        }
        assert_eq!(belt::quantize_by_class(set, &unmoved(3), 2, words, classes), Err(NoSuchCode));
        assert_eq!(belt::quantize_trimmed_by_class(set, 3, 2, words, classes), Err(NoSuchCode));
        assert_eq!(belt::elect_by_class(set, 2, words, classes), Err(NoSuchCode));
    }
    for gm_type in [2, 3] {
        assert_eq!(belt::fit_by_class(fibre, gm_type, words, classes), Err(Singular));
        assert_eq!(belt::quantize_by_class(fibre, &unmoved(gm_type), 1, words, classes), Ok(Model::IDENTITY));
    }
}

/// The same over lent samples.
#[test]
fn lent_calls_by_class() {
    type Call = (&'static str, fn(ClassSet, &[MotionSample], &[u8]) -> Result<(), Refusal>);
    fn unmoved(gm_type: u8) -> Fitted {
        Fitted { gm_type, numbers: [0.0, 0.0, 1.0, 0.0, 0.0, 1.0] }
    }
    let calls: [Call; 6] = [
        ("fit", |set, samples, classes| belt::fit_samples_by_class(set, 1, samples, classes).map(|_| ())),
        ("quantize", |set, samples, classes| {
            belt::quantize_samples_by_class(set, &unmoved(1), 1, samples, classes).map(|_| ())
        }),
        ("score", |set, samples, classes| {
            belt::score_samples_by_class(set, &Model::IDENTITY, samples, classes).map(|_| ())
        }),
        ("fit_trimmed", |set, samples, classes| {
            belt::fit_trimmed_samples_by_class(set, 1, samples, classes).map(|_| ())
        }),
        ("quantize_trimmed", |set, samples, classes| {
            belt::quantize_trimmed_samples_by_class(set, 1, 1, samples, classes).map(|_| ())
        }),
        ("elect", |set, samples, classes| belt::elect_samples_by_class(set, 1, samples, classes).map(|_| ())),
    ];
    let many = vec![MotionSample { x: 1.0, y: 2.0, u: 3.0, v: 4.0 }; 4097];
    let film = vec![FILM; 4097];
    let mut last_out = film.clone();
    last_out[8] = 5;
    let (none, over, fibre) = (ClassSet::of(&[]), ClassSet::of(&[FILM, 5]), ClassSet::of(&[FIBRE]));
    for (name, call) in calls {
        assert_eq!(call(none, &many, &film[..9]), Err(TooLarge), "{name}");
        assert_eq!(call(none, &many[..9], &film[..8]), Err(wrong("classes", 8, 9)), "{name}");
        for set in [none, over, fibre] {
            assert_eq!(call(set, &many[..9], &last_out[..9]), Err(NoSuchCode), "{name}");
        }
        assert_eq!(call(over, &many[..9], &film[..9]), Err(NoSuchCode), "{name}");
        assert_eq!(call(none, &many[..9], &film[..9]), Err(NoClass), "{name}");
        assert_eq!(call(ClassSet::of(&[FILM]), &many[..4096], &film[..4096]), Ok(()), "{name}");
        let trims = name.contains("trimmed");
        assert_eq!(call(fibre, &many[..9], &film[..9]), if trims { Err(TooFew) } else { Ok(()) }, "{name}");
    }
    let (samples, classes) = (&many[..9], &film[..9]);
    for set in [none, ClassSet::ALL] {
        assert_eq!(belt::fit_samples_by_class(set, 0, samples, classes), Err(NoSuchCode));
        assert_eq!(belt::quantize_samples_by_class(set, &unmoved(3), 2, samples, classes), Err(NoSuchCode));
        assert_eq!(belt::fit_trimmed_samples_by_class(set, 4, samples, classes), Err(NoSuchCode));
        assert_eq!(belt::quantize_trimmed_samples_by_class(set, 3, 2, samples, classes), Err(NoSuchCode));
        assert_eq!(belt::elect_samples_by_class(set, 2, samples, classes), Err(NoSuchCode));
    }
    for gm_type in [2, 3] {
        assert_eq!(belt::fit_samples_by_class(fibre, gm_type, samples, classes), Err(Singular));
    }
    // 16 is judged by the samples that are named
    let mut far = many[..5].to_vec();
    far[0].u = 1e200;
    let classes = [FILM, FIBRE, FIBRE, FIBRE, FIBRE];
    assert_eq!(belt::elect_samples_by_class(ClassSet::ALL, 1, &far, &classes), Err(NotFinite));
    assert_eq!(belt::elect_samples_by_class(fibre, 1, &far, &classes).map(|elected| elected.gm_type), Ok(1));
    assert_eq!(belt::fit_trimmed_samples_by_class(ClassSet::ALL, 1, &far, &classes), Err(NotFinite));
    assert_eq!(belt::fit_trimmed_samples_by_class(fibre, 1, &far, &classes).map(|trimmed| trimmed.used), Ok(4));
}

#[test]
fn elections() {
    let many = words(4097);
    assert_eq!(belt::elect(0, &many), Err(TooLarge));
    assert_eq!(belt::elect(2, &many), Err(TooLarge));
    assert_eq!(belt::elect(2, &[]), Err(NoSuchCode));
    assert_eq!(belt::elect(255, &many[..9]), Err(NoSuchCode));
    let across = |eighths: &[u32]| {
        let word = |(column, u): (u32, &u32)| column << 20 | 223 << 11 | (223 + u) << 2;
        (0..).zip(eighths).map(word).collect::<Vec<u32>>()
    };
    let elect = |flag, words: &[u32]| {
        let elected = belt::elect(flag, words).unwrap();
        let samples: Vec<_> = words.iter().map(|&word| belt::MotionSample::of_word(word)).collect();
        assert_eq!(belt::elect_samples(flag, &samples), Ok(elected));
        (elected.gm_type, elected.model.0[0], elected.model.0[1], elected.score)
    };
    assert_eq!(elect(1, &[]), (0, 0, 0, 0.0));
    assert_eq!(elect(1, &many[..4096]), (0, 0, 0, 0.0));
    assert_eq!(elect(1, &across(&[4; 4])), (1, 0, 32768, 0.0));
    assert_eq!(elect(1, &across(&[3; 4])), (0, 0, 0, 0.140625));
    assert_eq!(elect(1, &across(&[80; 3])), (0, 0, 0, 100.0));
    assert_eq!(elect(0, &across(&[13; 4])), (1, 0, 114688, 0.015625));
    assert_eq!(elect(1, &across(&[13; 4])), (1, 0, 106496, 0.0));
    // at one place the other types have no fit
    assert_eq!(elect(1, &[across(&[80])[0]; 8]), (1, 0, 655360, 0.0));
}

#[test]
fn elections_of_samples() {
    let row = |motions: &[f64]| {
        let sample =
            |(place, &u): (usize, &f64)| belt::MotionSample { x: 7.5 + 16.0 * place as f64, y: 7.5, u, v: 0.0 };
        motions.iter().enumerate().map(sample).collect::<Vec<_>>()
    };
    assert_eq!(belt::elect_samples(2, &row(&[0.0; 4097])), Err(TooLarge));
    assert_eq!(belt::elect_samples(2, &[]), Err(NoSuchCode));
    let kind = |motions: &[f64]| belt::elect_samples(1, &row(motions)).map(|elected| elected.gm_type);
    assert_eq!(kind(&[2.5, 2.5, 2.5, 2.5]), Ok(1));
    assert_eq!(kind(&[f64::NAN, 8.0, 8.0]), Ok(0));
    for far in [1e200, f64::INFINITY, f64::NAN] {
        assert_eq!(kind(&[far, 8.0, 8.0, 8.0]), Err(NotFinite));
        assert_eq!(kind(&[vec![far], vec![0.0; 4095]].concat()), Err(NotFinite));
    }
    // an energy and errors that are infinite
    let far = belt::elect_samples(1, &row(&[1.2e154, -1.2e154, 1.2e154, -1.2e154])).unwrap();
    assert_eq!((far.gm_type, far.model, far.score), (0, StoredModel::IDENTITY, f64::INFINITY));
}

#[test]
fn quantize_global_param() {
    assert_eq!(belt::quantize_global_param(4, 0, 0, 0), Err(NoSuchCode));
    assert_eq!(belt::quantize_global_param(0, 2, 0, 0), Err(NoSuchCode));
    assert_eq!(belt::quantize_global_param(3, 1, 6, 0), Err(NoSuchSlot));
    assert_eq!(belt::quantize_global_param(4, 1, 6, 0), Err(NoSuchCode));
    for (flag, slot, value, answer) in [
        (1, 0, 4095, 0),
        (1, 0, 4096, 8192),
        (1, 1, -4096, -8192),
        (1, 0, 4_198_400, 4_194_304),
        (0, 0, 8191, 0),
        (0, 1, 8192, 16384),
        (0, 2, 73729, 73728),
        (0, 5, i32::MIN, 57344),
    ] {
        assert_eq!(belt::quantize_global_param(1, flag, slot, value), Ok(answer));
    }
}

/// The right check for a block that was changed.
fn mended(mut block: Vec<u8>) -> Vec<u8> {
    let word = |four: &[u8]| u32::from_be_bytes(four.try_into().unwrap());
    let check = block[..508].chunks(4).map(word).fold(1u32, u32::wrapping_add);
    block[508..].copy_from_slice(&check.to_be_bytes());
    block
}

#[test]
fn frames_stored() {
    let good = words(126);
    let film = [FILM; 126];
    let store = |words: &[u32], classes: &[u8], room: usize, row: Result<usize, Refusal>| {
        let mut blocks = vec![0xEE; room];
        assert_eq!(belt::write_frame(7, words, classes, &mut blocks), row);
        if row.is_err() {
            assert_eq!(blocks, vec![0xEE; room]);
        }
    };
    store(&words(4097), &[], 40_000, Err(TooLarge));
    store(&good, &film[..125], 1024, Err(wrong("classes", 125, 126)));
    store(&good[..1], &film[..2], 512, Err(wrong("classes", 2, 1)));
    store(&[good[1], good[0]], &[FILM, 5], 512, Err(NoSuchCode));
    store(&[447 << 11], &[0], 512, Err(NotRising));
    store(&[447 << 2], &[0], 512, Err(NotRising));
    store(&[good[0] | 1], &[1], 512, Err(NotRising));
    store(&[good[1], good[0]], &film[..2], 512, Err(NotRising));
    store(&[good[1], good[1]], &film[..2], 0, Err(NotRising));
    store(&good, &film, 1023, Err(short("blocks", 1023, 1024)));
    store(&good[..1], &film[..1], 511, Err(short("blocks", 511, 512)));
    store(&[], &[], 0, Ok(0));
    store(&good, &film, 1024, Ok(2));
}

#[test]
fn frames_read_and_converted() {
    let (good, metal, film) = (words(126), [METAL; 126], [FILM; 126]);
    let (mut blocks, mut filmed, mut old) = ([0; 1024], [0; 1024], [0; 1024]);
    assert_eq!(belt::write_frame(7, &good, &metal, &mut blocks), Ok(2));
    assert_eq!(belt::write_frame(7, &good, &film, &mut filmed), Ok(2));
    assert_eq!(belt::to_form1(&blocks, &mut old), Ok(2));

    let both = |bytes: &[u8], rooms: [usize; 2], row| {
        let (mut words, mut classes) = (vec![0xEEEE_EEEE; rooms[0]], vec![0xEE; rooms[1]]);
        assert_eq!(belt::read_both(bytes, &mut words, &mut classes).map(|frame| frame.samples), row);
        if row.is_err() {
            assert_eq!((&words, &classes), (&vec![0xEEEE_EEEE; rooms[0]], &vec![0xEE; rooms[1]]));
        }
        (words, classes)
    };
    for (bytes, class) in [(&blocks, METAL), (&filmed, FILM), (&old, METAL)] {
        let (words, classes) = both(bytes, [127, 128], Ok(126));
        assert_eq!((&words[..126], words[126]), (&good[..], 0xEEEE_EEEE));
        assert_eq!((&classes[..126], &classes[126..]), (&[class; 126][..], &[0xEE, 0xEE][..]));
        both(bytes, [125, 126], Err(short("words", 125, 126)));
        both(bytes, [126, 125], Err(short("classes", 125, 126)));
        both(&bytes[..1023], [126, 126], Err(EndsFirst));
        both(&[&bytes[..512], &[0; 512]].concat(), [126, 126], Err(WrongCheck));
        both(&[&bytes[..512], &bytes[..512]].concat(), [126, 126], Err(WrongBlock));
    }
    // mixed forms
    both(&[&blocks[..512], &old[512..]].concat(), [126, 126], Err(WrongBlock));
    both(&[&old[..512], &blocks[512..]].concat(), [126, 126], Err(WrongBlock));
    both(&[], [0, 0], Ok(0));
    // a class bit, class 5, form 3 and filler
    for (at, value) in [(11, 0x7D), (12, 5), (2, 3), (13, 1)] {
        let mut one = vec![0; 512];
        belt::write_frame(7, &good[..1], &[0], &mut one).unwrap();
        one[at] = value;
        both(&mended(one), [1, 1], Err(WrongBlock));
    }

    let read = |bytes: &[u8], room: usize, row| {
        let mut words = vec![0xEEEE_EEEE; room];
        assert_eq!(belt::read_frame(bytes, &mut words).map(|frame| frame.samples), row);
        if row.is_err() {
            assert_eq!(words, vec![0xEEEE_EEEE; room]);
        }
        words
    };
    let classed: Vec<u32> = good.iter().map(|word| word | u32::from(METAL)).collect();
    assert_eq!(read(&old, 127, Ok(126))[..126], classed);
    assert_eq!(read(&old, 127, Ok(126))[126], 0xEEEE_EEEE);
    read(&old, 125, Err(short("words", 125, 126)));
    read(&old[..512], 126, Err(EndsFirst));
    read(&[0; 511], 126, Err(EndsFirst));
    read(&[0; 512], 126, Err(WrongCheck));
    read(&blocks, 126, Err(WrongBlock));
    read(&[], 0, Ok(0));

    type Convert = fn(&[u8], &mut [u8]) -> Result<usize, Refusal>;
    let convert = |to: Convert, bytes: &[u8], room: usize, row: Result<usize, Refusal>| {
        let mut out = vec![0xEE; room];
        assert_eq!(to(bytes, &mut out), row);
        if row.is_err() {
            assert_eq!(out, vec![0xEE; room]);
        }
        out
    };
    assert_eq!(convert(belt::to_form2, &old, 1024, Ok(2)), blocks);
    assert_eq!(convert(belt::to_form1, &blocks, 1025, Ok(2))[..1024], old);
    convert(belt::to_form2, &blocks, 1024, Err(WrongBlock));
    convert(belt::to_form1, &old, 1024, Err(WrongBlock));
    convert(belt::to_form1, &filmed, 0, Err(NotHeld));
    convert(belt::to_form1, &filmed[..512], 0, Err(EndsFirst));
    convert(belt::to_form1, &[&filmed[..512], &[0; 512]].concat(), 0, Err(WrongCheck));
    convert(belt::to_form1, &blocks, 1023, Err(short("blocks", 1023, 1024)));
    convert(belt::to_form2, &old, 1023, Err(short("blocks", 1023, 1024)));
    convert(belt::to_form1, &[], 0, Ok(0));
    convert(belt::to_form2, &[], 0, Ok(0));
    assert_eq!([Form::One, Form::Two].map(|form| belt::block_bytes(126, form)), [1024, 1024]);
}

#[test]
fn blocks_judged_and_listed() {
    let good = words(126);
    let (mut blocks, mut old) = ([0; 1024], [0; 1024]);
    belt::write_frame(7, &good, &[METAL; 126], &mut blocks).unwrap();
    belt::to_form1(&blocks, &mut old).unwrap();
    let judge = |bytes: &[u8]| belt::judge_block(bytes).map(|block| (block.frame, block.ordinal, block.count));
    assert_eq!((judge(&blocks), judge(&blocks[512..])), (Ok((7, 0, 100)), Ok((7, 1, 26))));
    assert_eq!((judge(&old), judge(&old[512..])), (Ok((7, 0, 125)), Ok((7, 1, 1))));
    assert_eq!(judge(&blocks[513..]), Err(EndsFirst));
    assert_eq!(judge(&[0; 512]), Err(WrongCheck));
    // form 0, check right
    let mut form = blocks[512..].to_vec();
    form[2] = 0;
    let form = mended(form);
    assert_eq!(judge(&form), Err(WrongBlock));

    let mut text = [0xEE; belt::TEXT_BYTES];
    assert_eq!(belt::list_block(&form, &mut text), "refused 11\n");
    assert_eq!(text[11..], [0xEE; belt::TEXT_BYTES - 11]);
    assert_eq!(belt::list_block(&[0; 512], &mut text), "refused 10\n");
    assert_eq!(belt::list_block(&[], &mut text), "refused 9\n");
    assert_eq!(belt::list_block(&old[512..], &mut text), "frame 7 block 1 count 1\n1 61 0 0 3\n");
}

/// The frame number of every block made 0, with the checks right.
fn shut(blocks: &[u8]) -> Vec<u8> {
    blocks.chunks(512).flat_map(|block| mended([&[0, 0], &block[2..]].concat())).collect()
}

#[test]
fn a_closed_shutter() {
    let good = words(126);
    let (mut blocks, mut old) = ([0; 1024], [0; 1024]);
    for (count, classes, room, row) in [
        (0, 0, 0, ShutterClosed),
        (0, 1, 0, wrong("classes", 1, 0)),
        (1, 1, 511, short("blocks", 511, 512)),
        (1, 1, 512, ShutterClosed),
        (126, 126, 1024, ShutterClosed),
    ] {
        let mut out = vec![0xEE; room];
        assert_eq!(belt::write_frame(0, &good[..count], &vec![FILM; classes], &mut out), Err(row));
        assert_eq!(out, vec![0xEE; room]);
    }
    belt::write_frame(7, &good, &[METAL; 126], &mut blocks).unwrap();
    belt::to_form1(&blocks, &mut old).unwrap();
    let mut filmed = [0; 1024];
    belt::write_frame(7, &good, &[FILM; 126], &mut filmed).unwrap();
    let (blocks, old, filmed) = (shut(&blocks), shut(&old), shut(&filmed));
    // read and converted: 17 after the block's own rows, before 13 and 3, and before a bad second block
    for bytes in [&blocks[..], &old[..], &[&blocks[..512], &[0; 512]].concat()[..]] {
        assert_eq!(belt::read_both(bytes, &mut [], &mut []), Err(ShutterClosed));
    }
    assert_eq!(belt::read_frame(&old, &mut []), Err(ShutterClosed));
    assert_eq!(belt::read_frame(&blocks, &mut []), Err(WrongBlock));
    assert_eq!(belt::to_form2(&old, &mut []), Err(ShutterClosed));
    assert_eq!(belt::to_form1(&old, &mut []), Err(WrongBlock));
    assert_eq!(belt::to_form1(&filmed, &mut []), Err(ShutterClosed));
    assert_eq!(belt::read_both(&blocks[..511], &mut [], &mut []), Err(EndsFirst));
    // alone they are judged and listed
    assert_eq!(belt::judge_block(&blocks).map(|block| (block.frame, block.count)), Ok((0, 100)));
    let mut text = [0; belt::TEXT_BYTES];
    assert_eq!(belt::list_block(&old[512..], &mut text), "frame 0 block 1 count 1 closed\n1 61 0 0 3\n");
}

#[test]
fn headers_written_and_read() {
    let mut params = IDENTITIES;
    params[0].0[..2].copy_from_slice(&[8192, -8192]);
    let types = [1, 0, 0, 0, 0, 0, 0];
    type Stored<'a> = &'a [StoredModel];
    let write = |types: &[u8], params: Stored, flag, prior: Stored, room: usize, row: Result<usize, Refusal>| {
        let mut header = vec![0xEE; room];
        assert_eq!(belt::encode_inter_global_motion(types, params, flag, prior, 0, &mut header), row);
        if row.is_err() {
            assert_eq!(header, vec![0xEE; room]);
        }
        header
    };
    let changed = |at: usize, value: i32| {
        let mut numbers = IDENTITIES;
        numbers[at / 6].0[at % 6] = value;
        numbers
    };
    assert_eq!(write(&types, &params, 1, &IDENTITIES, 5, Ok(17)), [0xA4, 0x20, 0x00, 0xEE, 0xEE]);
    // from each bit of the first byte on: the bits before it stay
    for (start, bytes) in
        [0xA42000FF_u32, 0xD21000FF, 0xE90800FF, 0xF48400FF, 0xFA4200FF, 0xFD2100FF, 0xFE9080FF, 0xFF4840FF]
            .into_iter()
            .enumerate()
    {
        let mut header = [0xFF; 4];
        assert_eq!(belt::encode_inter_global_motion(&types, &params, 1, &IDENTITIES, start, &mut header), Ok(17));
        assert_eq!(header, bytes.to_be_bytes());
        let back = belt::read_global_motion_params(&header[..3], start, 1, &IDENTITIES).unwrap();
        assert_eq!((back.types, back.models, back.bits), (types, params, 17));
    }
    let identities =
        |start, room: &mut [u8]| belt::encode_inter_global_motion(&[0; 7], &IDENTITIES, 1, &IDENTITIES, start, room);
    assert_eq!(identities(2, &mut [0xFF]), Err(short("header", 1, 2)));
    assert_eq!(identities(8, &mut [0xFF; 125]), Err(StartOver));
    assert_eq!(belt::encode_inter_global_motion(&types, &params, 2, &IDENTITIES, 8, &mut [0xFF; 125]), Err(NoSuchCode));
    assert_eq!(belt::encode_inter_global_motion(&[0; 7], &params, 1, &IDENTITIES, 8, &mut [0xFF; 125]), Err(StartOver));
    write(&types[..6], &params, 1, &IDENTITIES, 3, Err(wrong("types", 6, 7)));
    write(&types, &params[..6], 1, &IDENTITIES, 3, Err(wrong("models", 6, 7)));
    write(&types, &params, 1, &IDENTITIES[..6], 3, Err(wrong("prior", 6, 7)));
    write(&[1, 0, 0, 0, 0, 0, 4], &params, 1, &IDENTITIES, 3, Err(NoSuchCode));
    write(&types, &params, 2, &IDENTITIES, 3, Err(NoSuchCode));
    write(&[3, 0, 0, 0, 0, 0, 0], &changed(2, 65537), 1, &IDENTITIES, 30, Err(OffGrid));
    write(&[0; 7], &params, 1, &IDENTITIES, 3, Err(OffGrid));
    write(&[2, 0, 0, 0, 0, 0, 0], &changed(3, 2), 1, &IDENTITIES, 30, Err(OffGrid));
    write(&types, &params, 1, &changed(3, 8193), 3, Err(PriorOut));
    write(&types, &params, 1, &IDENTITIES, 2, Err(short("header", 2, 3)));
    write(&types, &params, 1, &IDENTITIES, 0, Err(short("header", 0, 3)));

    let read = |header: &[u8], at, flag, prior: Stored| belt::read_global_motion_params(header, at, flag, prior);
    let header = [0xA4, 0x20, 0x00];
    let back = read(&header, 0, 1, &IDENTITIES).unwrap();
    assert_eq!((back.types, back.models, back.bits), (types, params, 17));
    // the same bits from another position on
    let shifted = [0xFF, 0xF4, 0x84, 0x00];
    assert_eq!(read(&shifted, 11, 1, &IDENTITIES), Ok(back));
    assert_eq!(read(&header, 0, 1, &IDENTITIES[..6]), Err(wrong("prior", 6, 7)));
    assert_eq!(read(&header, 0, 2, &IDENTITIES), Err(NoSuchCode));
    assert_eq!(read(&header, 0, 1, &changed(4, 8193)), Err(PriorOut));
    assert_eq!(read(&header[..2], 0, 1, &IDENTITIES), Err(EndsFirst));
    assert_eq!(read(&[], 0, 1, &IDENTITIES), Err(EndsFirst));
    assert_eq!(read(&header, 24, 1, &IDENTITIES), Err(EndsFirst));
    assert_eq!(read(&header, usize::MAX, 1, &IDENTITIES), Err(EndsFirst));
}

#[test]
fn key_frames_written_and_read() {
    let key = |types: &[u8], models: &[StoredModel], flag, prior: &[StoredModel], start, room: usize| {
        let mut header = vec![0xEE; room];
        let wrote = belt::encode_global_motion(Kind::Key, types, models, flag, prior, start, &mut header);
        assert_eq!(header, vec![0xEE; room], "no byte is touched");
        wrote
    };
    let wild = [StoredModel([i32::MIN; 6]); 7];
    let mut moved = IDENTITIES;
    moved[0].0[0] = 8192;
    for (prior, start, room) in [(&IDENTITIES[..], 3, 1), (&wild[..1], 0, 0), (&wild[..], 7, 125), (&[][..], 0, 9)] {
        assert_eq!(key(&[0; 7], &IDENTITIES, 1, prior, start, room), Ok(0));
    }
    assert_eq!(key(&[0; 6], &IDENTITIES, 2, &wild, 8, 0), Err(wrong("types", 6, 7)));
    assert_eq!(key(&[0; 7], &IDENTITIES[..6], 2, &wild, 8, 0), Err(wrong("models", 6, 7)));
    assert_eq!(key(&[4, 0, 0, 0, 0, 0, 0], &IDENTITIES, 1, &wild, 8, 0), Err(NoSuchCode));
    assert_eq!(key(&[0; 7], &IDENTITIES, 2, &wild, 8, 0), Err(NoSuchCode));
    assert_eq!(key(&[1, 0, 0, 0, 0, 0, 0], &IDENTITIES, 1, &wild, 8, 0), Err(StartOver));
    assert_eq!(key(&[1, 0, 0, 0, 0, 0, 0], &IDENTITIES, 1, &wild, 0, 0), Err(OffGrid));
    assert_eq!(key(&[0; 7], &moved, 1, &wild, 0, 0), Err(OffGrid));

    for (bytes, at, prior) in
        [(&[][..], 99, &wild[..]), (&[0xFF; 9][..], 0, &[][..]), (&[][..], usize::MAX, &wild[..1])]
    {
        let read = belt::read_global_motion(Kind::Key, bytes, at, 0, prior).unwrap();
        assert_eq!((read.types, read.models, read.bits), ([0; 7], IDENTITIES, 0));
        assert_eq!(belt::read_global_motion(Kind::Key, bytes, at, 2, prior), Err(NoSuchCode));
    }

    // an inter frame as ever
    let mut header = [0xEE; 2];
    assert_eq!(belt::encode_global_motion(Kind::Inter, &[0; 7], &IDENTITIES, 1, &IDENTITIES, 0, &mut header), Ok(7));
    assert_eq!(header, [0x00, 0xEE]);
    assert_eq!(belt::encode_global_motion(Kind::Inter, &[0; 7], &IDENTITIES, 1, &wild, 0, &mut header), Err(PriorOut));
    let read = |at| belt::read_global_motion(Kind::Inter, &header, at, 1, &IDENTITIES).map(|read| read.bits);
    assert_eq!((read(0), read(99)), (Ok(7), Err(EndsFirst)));
}

#[test]
fn setup_shear() {
    let model = |linear: [i32; 4]| [0, 0, linear[0], linear[1], linear[2], linear[3]];
    let still = Model::IDENTITY.0;
    for (linear, valid, [alpha, beta, gamma, delta]) in [
        ([67584, 8192, 0, 65536], false, [2048, 8192, 0, 0]),
        ([67520, 8192, 0, 65536], true, [1984, 8192, 0, 0]),
        ([65536, 0, 8192, 73696], false, [0, 0, 8192, 8192]),
        ([65536, 0, 8192, 73694], true, [0, 0, 8192, 8128]),
        ([58790, -1166, -6684, 73728], true, [-6720, -1152, -7488, 8064]),
    ] {
        assert_eq!(belt::setup_shear(3, &model(linear)), Ok(Shear { valid, alpha, beta, gamma, delta }));
    }
    assert_eq!(belt::setup_shear(4, &still[..5]), Err(wrong("params", 5, 6)));
    assert_eq!(belt::setup_shear(4, &model([65537, 0, 0, 65536])), Err(NoSuchCode));
    assert_eq!(belt::setup_shear(0, &still), Err(OffGrid));
    assert_eq!(belt::setup_shear(1, &still), Err(OffGrid));
    assert_eq!(belt::setup_shear(3, &model([65537, 0, 0, 65536])), Err(OffGrid));
    assert_eq!(belt::setup_shear(2, &model([65536, 2, 2, 65536])), Err(OffGrid));
}

#[test]
fn make_practice_planes() {
    let make = |width, height, dy, dx, input_room, reference_room| {
        let (mut input, mut reference) = (vec![0xA55A; input_room], vec![0x5AA5; reference_room]);
        let made = belt::make_practice_planes(u32::MAX, width, height, dy, dx, &mut input, &mut reference);
        (made, input, reference)
    };
    let (made, input, reference) = make(4, 2, -1, 1, 8 + 3, 8 + 3);
    assert_eq!(made, Ok(8));
    assert_eq!(input, [12311, 8835, 41343, 41343, 12311, 8835, 41343, 41343, 0xA55A, 0xA55A, 0xA55A]);
    assert_eq!(reference, [15445, 12311, 8835, 41343, 47029, 57284, 59813, 47440, 0x5AA5, 0x5AA5, 0x5AA5]);
    for (width, height, dy, dx, input_room, reference_room, row) in [
        (1025, 1, 0, -25, 0, 0, TooLarge),
        (1, 1025, 25, 0, 0, 0, TooLarge),
        (usize::MAX, usize::MAX, 0, 0, 0, 0, TooLarge),
        (5, 5, 25, 0, 10, 10, TooFar),
        (5, 5, i32::MIN, 0, 10, 10, TooFar),
        (5, 5, 0, -25, 10, 10, TooFar),
        (5, 5, 24, -24, 10, 10, short("input", 10, 25)),
        (5, 5, -24, 24, 25, 24, short("reference", 24, 25)),
    ] {
        let (made, input, reference) = make(width, height, dy, dx, input_room, reference_room);
        assert_eq!(made, Err(row));
        assert!(input.iter().all(|&pel| pel == 0xA55A) && reference.iter().all(|&pel| pel == 0x5AA5));
    }
    assert_eq!(make(0, 1024, 24, 24, 0, 0).0, Ok(0));
}

#[test]
fn prices() {
    let of = |gm_type, flag, slot, prior| belt::coefficient_prices(gm_type, flag, slot, prior);
    let whole = of(3, 0, 5, 65536).unwrap();
    assert_eq!(whole.ordinals().len(), 20);
    assert_eq!(whole.ordinals().iter().sum::<u32>(), 2 * 4096 + 1);
    assert_eq!((whole.at(3), whole.at(4), whole.at(22), whole.at(23), whole.at(24)), (0, 8, 4095, 2, 0));
    assert_eq!(of(1, 0, 1, 0).unwrap().ordinals(), [8, 8, 0, 16, 0, 32, 0, 64, 0, 128, 255, 2]);
    assert_eq!(of(2, 1, 3, 8193), Err(PriorOut));
    assert_eq!(of(2, 1, 4, 99999), Err(NoSuchSlot));
    assert_eq!(of(0, 0, 0, 0), Err(NoSuchSlot));
    assert_eq!(of(3, 2, 6, 0), Err(NoSuchCode));
}

#[test]
fn price_of_a_frame() {
    let mut types = [0; 7];
    let mut models = IDENTITIES;
    types[0] = 1;
    models[0] = StoredModel([8192, -8192, 65536, 0, 0, 65536]);
    let price = |kind, types: &[u8], models: &[StoredModel], flag, prior: &[StoredModel]| {
        belt::frame_price(kind, types, models, flag, prior)
    };
    assert_eq!(price(Kind::Inter, &types, &models, 1, &IDENTITIES), Ok(17));
    for start in 0..8 {
        let mut header = [0; 125];
        assert_eq!(
            belt::encode_global_motion(Kind::Inter, &types, &models, 1, &IDENTITIES, start, &mut header),
            Ok(17)
        );
    }
    assert_eq!(price(Kind::Inter, &types, &models, 2, &IDENTITIES), Err(NoSuchCode));
    assert_eq!(price(Kind::Inter, &types, &models, 0, &IDENTITIES), Err(OffGrid));
    assert_eq!(price(Kind::Inter, &types, &models, 1, &IDENTITIES[..6]), Err(wrong("prior", 6, 7)));
    assert_eq!(price(Kind::Key, &types, &models, 1, &IDENTITIES), Err(OffGrid));
    assert_eq!(price(Kind::Key, &[0; 6], &IDENTITIES, 1, &[]), Err(wrong("types", 6, 7)));
    assert_eq!(price(Kind::Key, &[0; 7], &IDENTITIES, 1, &[]), Ok(0));
    let far = [StoredModel([4_194_305, 0, 65536, 0, 0, 65536]); 7];
    assert_eq!(price(Kind::Inter, &types, &models, 1, &far), Err(PriorOut));
    assert_eq!(price(Kind::Key, &[0; 7], &IDENTITIES, 1, &far), Ok(0));
}
