//! Jobs of the three types and jobs that elect on made-up frames: what they report, what they leave, and that it reads back.

mod frames;

use belt::{
    BLOCK_BYTES, Buffers, ClassSet, FIBRE, FILM, Fitted, Form, Frame, METAL, Model, MotionSample, RIGID_PLASTIC,
    Refusal, Report, StoredModel, TEXT_BYTES, UNSORTED, sample_count,
};
use frames::{Handed, guarded, moved, noisy_plane, smooth_plane};

const STILL: [f64; 6] = [0.0, 0.0, 1.0, 0.0, 0.0, 1.0];

fn fit(gm_type: u8, words: &[u32]) -> Result<Fitted, Refusal> {
    [belt::fit_translation, belt::fit_rotzoom, belt::fit_affine][usize::from(gm_type) - 1](words)
}

/// Runs an accepted job and holds it against the single calls, what reads back, and the guards.
fn run(handed: &Handed) -> (Report, Buffers) {
    let (width, height) = (handed.width, handed.height);
    let before = guarded(width, height);
    let mut after = before.clone();
    let report = belt::job(&handed.task(), &mut after.lend()).expect("no row refuses");
    let settings = handed.settings;
    let samples = sample_count(width, height);
    assert_eq!(report.samples, samples);

    // the search alone leaves the same half planes and words
    let mut search = before.clone();
    let found = belt::collect_motion_samples(
        &handed.input,
        &handed.reference,
        width,
        height,
        &handed.classes,
        &mut search.input_half,
        &mut search.ref_half,
        &mut search.words,
    );
    let found = found.expect("no row refuses");
    assert_eq!(found.samples, samples);
    let blocks = u32::try_from(samples).unwrap();
    assert!((736 * blocks..=6184 * blocks).contains(&found.rows));
    assert_eq!(
        (&search.input_half, &search.ref_half, &search.words),
        (&after.input_half, &after.ref_half, &after.words)
    );

    // fit, grid and score are those of the single calls
    let words = &after.words[..samples];
    let fitted = fit(settings.gm_type, words).expect("the words have a fit");
    let model = belt::quantize_model(&fitted, settings.flag, words).unwrap();
    let place = usize::from(settings.reference) - 1;
    assert_eq!(report.models[place], model.row_first(settings.gm_type));
    assert_eq!(report.models[place].x_first(settings.gm_type), model);
    assert_eq!(report.score, belt::mean_sq_residual(&model, words).unwrap());

    // and those of the samples that the words stand for
    let made: Vec<_> = words.iter().map(|&word| MotionSample::of_word(word)).collect();
    assert!(words.iter().zip(&made).all(|(&word, sample)| sample.word((word & 3) as u8) == Some(word)));
    let fits = [belt::fit_translation_samples, belt::fit_rotzoom_samples, belt::fit_affine_samples];
    assert_eq!(fits[usize::from(settings.gm_type) - 1](&made).unwrap(), fitted);
    assert_eq!(belt::quantize_model_samples(&fitted, settings.flag, &made).unwrap(), model);
    assert_eq!(belt::mean_sq_residual_samples(&model, &made).unwrap(), report.score);
    let (kind, flag) = (settings.gm_type, settings.flag);
    assert_eq!(belt::fit_trimmed_samples(kind, &made), belt::fit_trimmed(kind, words));
    assert_eq!(belt::quantize_trimmed_samples(kind, flag, &made), belt::quantize_trimmed(kind, flag, words));
    assert_eq!(belt::elect_samples(flag, &made), belt::elect(flag, words));

    // the six others keep their order
    let mut types = handed.types.clone();
    types.insert(place, settings.gm_type);
    assert_eq!(report.types[..], types);
    let others = [&report.models[..place], &report.models[place + 1..]].concat();
    assert_eq!(others, handed.models);

    // the header reads back as the report, and nothing behind its last byte is written
    let (flag, start, prior) = (settings.flag, settings.start, &handed.prior);
    let read = belt::read_global_motion_params(&after.header, start, flag, prior).unwrap();
    assert_eq!((read.types, read.models, read.bits), (report.types, report.models, report.bits));
    let bytes = (start + report.bits).div_ceil(8);
    assert_eq!(after.header[bytes..], before.header[bytes..]);
    let padding = 8 * bytes - start - report.bits;
    assert_eq!(after.header[bytes - 1] & ((1u16 << padding) - 1) as u8, 0);
    assert_eq!((after.header[0] ^ before.header[0]) & !(0xff >> start), 0);
    let mut again = [&before.header[..bytes], &[0x77, 0x77]].concat();
    let wrote = belt::encode_inter_global_motion(&report.types, &report.models, flag, prior, start, &mut again);
    assert_eq!(wrote, Ok(report.bits));
    assert_eq!((&again[..bytes], &again[bytes..]), (&after.header[..bytes], &[0x77, 0x77][..]));

    // the blocks are of form 2 and read back as the words and the classes
    let (own, behind) = after.blocks.split_at(belt::block_bytes(samples, Form::Two));
    assert_eq!(behind, &before.blocks[own.len()..]);
    let (mut back, mut classes) = (vec![0; samples], vec![0; samples]);
    assert_eq!(belt::read_both(own, &mut back, &mut classes), Ok(Frame { number: settings.frame, samples }));
    assert_eq!((&back[..], &classes), (words, &handed.classes));
    if samples > 0 {
        assert_eq!(belt::read_frame(own, &mut back), Err(Refusal::WrongBlock));
    }
    let mut stored = vec![0; own.len()];
    assert_eq!(belt::write_frame(settings.frame, words, &classes, &mut stored), Ok(own.len() / BLOCK_BYTES));
    assert_eq!(stored, own);
    for (ordinal, block) in own.chunks(BLOCK_BYTES).enumerate() {
        let judged = belt::judge_block(block).unwrap();
        let most = Form::Two.samples();
        let count = most.min(samples - most * ordinal);
        assert_eq!((judged.frame, judged.ordinal, judged.count), (settings.frame, ordinal, count));
        let mut text = [0; TEXT_BYTES];
        let text = belt::list_block(block, &mut text);
        let first = format!("frame {} block {ordinal} count {count}", settings.frame);
        assert_eq!(text.lines().next(), Some(first.as_str()));
        assert_eq!(text.lines().count(), 1 + count);
    }
    (report, after)
}

#[test]
fn a_translation_by_whole_pels_is_found_exactly() {
    for (dy, dx) in [(0, 0), (4, -6), (-8, 2), (2, 4)] {
        let reference = noisy_plane(96, 80);
        let input = moved(&reference, 96, 80, dy, dx);
        let (report, left) = run(&Handed::new(input, reference, 96, 80, 1));
        for (i, word) in left.words[..30].iter().enumerate() {
            let (row, column) = (i as u32 / 6, i as u32 % 6);
            let (v, u) = ((8 * dy + 223) as u32, (8 * dx + 223) as u32);
            assert_eq!(*word, row << 26 | column << 20 | v << 11 | u << 2, "sample {i} of {dy}, {dx}");
        }
        let whole = |pels: i64| pels as i32 * 65536;
        assert_eq!(report.models[2], StoredModel([whole(dy), whole(dx), 65536, 0, 0, 65536]));
        assert_eq!(report.score, 0.0);
        let model = report.models[2].x_first(1);
        assert_eq!((model.shift().v, model.shift().u), (dy as f64, dx as f64));
        assert_eq!((model.zoom(), model.degrees()), (1.0, 0.0));
        assert_eq!(model.agreeing(&left.words[..30], 0.0), 30);
    }
}

#[test]
fn rotation_zooms_and_affine_motions_read_back() {
    for gm_type in 1..=3 {
        for motion in [[3.0, -2.0, 1.01, 0.02, -0.02, 1.01], [-1.5, 2.25, 0.98, 0.01, 0.03, 1.02], STILL] {
            for reference in [1, 4, 7] {
                for flag in [0, 1] {
                    let planes = (smooth_plane(112, 80, motion), smooth_plane(112, 80, STILL));
                    let mut handed = Handed::new(planes.0, planes.1, 112, 80, gm_type);
                    handed.settings.reference = reference;
                    handed.settings.flag = flag;
                    run(&handed);
                }
            }
        }
    }
}

/// The bowl of docs/RULES.md, 'Job', at the places that are given of row and column.
fn bowl(place: fn(i32, i32) -> (i32, i32)) -> Vec<u16> {
    let square = |at: i32, middle: i32| (at.clamp(0, 63) - middle).pow(2);
    let places = (0..64 * 64).map(|i| place(i / 64, i % 64));
    places.map(|(r, c)| (square(r, 31) + 2 * square(c, 29)) as u16).collect()
}

/// A job on the bowl at those places, for reference 7.
fn bowl_job(place: fn(i32, i32) -> (i32, i32), gm_type: u8) -> Handed {
    let mut handed = Handed::new(bowl(place), bowl(|r, c| (r, c)), 64, 64, gm_type);
    (handed.settings.frame, handed.settings.reference) = (5, 7);
    handed
}

fn zoomed(r: i32, c: i32) -> (i32, i32) {
    (r + r / 16, c + c / 16)
}

/// The same job with and without trimming.
#[test]
fn a_bowl_is_trimmed() {
    let mut handed = bowl_job(zoomed, 2);
    for (trim, model, score, bits) in [
        (1, [-29696, -30720, 69638, -22, 22, 69638], 0x3FB5_8AF3_0400_0000, 55),
        (0, [-37888, -30720, 69678, 160, -160, 69678], 0x3FB2_B2BB_2200_0000, 63),
    ] {
        handed.settings.trim = trim;
        let mut left = guarded(64, 64);
        let report = belt::job(&handed.task(), &mut left.lend()).expect("no row refuses");
        assert_eq!((report.models[6], report.bits), (StoredModel(model), bits));
        assert_eq!(report.score.to_bits(), score);
        let words = &left.words[..16];
        assert_eq!(report.score, belt::mean_sq_residual(&Model(model), words).unwrap());
        let trimmed = belt::quantize_trimmed(2, 1, words).unwrap();
        assert_eq!((trimmed.model == Model(model), trimmed.used), (trim == 1, 15));
        assert_eq!(belt::fit_trimmed(2, words).unwrap().used, 15);
        let read = belt::read_global_motion_params(&left.header, 5, 1, &handed.prior).unwrap();
        assert_eq!((read.models, read.bits), (report.models, report.bits));
    }
}

/// What is written of a job that elects: its model as stored, the score's bits, and the header over bytes of ones.
type Election = (fn(i32, i32) -> (i32, i32), u8, [i32; 6], u64, usize, &'static [u8]);

/// Shift, turn, zoom and slant of the bowl, each elected as another type asked for wouldn't change.
#[test]
fn bowls_are_elected() {
    let elections: [Election; 5] = [
        (|r, c| (r, c), 0, [0, 0, 65536, 0, 0, 65536], 0, 7, &[0xF8, 0x00]),
        (
            |r, c| (r + 2, c - 3),
            1,
            [131072, -196608, 65536, 0, 0, 65536],
            0x3F68_0000_0000_0000,
            27,
            &[0xF8, 0x17, 0x81, 0xCF],
        ),
        (
            |r, c| (r + c / 16 - 2, c - r / 16 + 1),
            2,
            [95232, -160768, 65542, -4078, 4078, 65542],
            0x3F4C_B15A_0000_0000,
            61,
            &[0xF8, 0x1B, 0x7F, 0xDF, 0xB7, 0xE7, 0x5F, 0x8E, 0x40],
        ),
        (zoomed, 2, [-29696, -30720, 69638, -22, 22, 69638], 0x3FB5_8AF3_0400_0000, 55, &[]),
        (
            |r, c| (r, c + r / 8),
            3,
            [-1024, -108544, 65742, 6708, 4826, 64626],
            0x3FF5_5DC0_3250_0000,
            100,
            &[0xF8, 0x13, 0xE9, 0xDF, 0xFD, 0x1A, 0x7F, 0xE5, 0xB5, 0xFD, 0x8D, 0x1F, 0xA9, 0x80],
        ),
    ];
    for (place, gm_type, model, score, bits, header) in elections {
        // type and trim code aren't looked at
        for (asked, trim) in [(0, 0), (1, 1), (3, 0), (4, 2), (255, 255)] {
            let mut handed = bowl_job(place, asked);
            (handed.settings.trim, handed.settings.elect) = (trim, 1);
            let mut left = Buffers::new(64, 64);
            left.header.fill(0xFF);
            let report = belt::job(&handed.task(), &mut left.lend()).expect("no row refuses");
            assert_eq!((report.types[6], report.models[6]), (gm_type, StoredModel(model)));
            assert_eq!((report.score.to_bits(), report.bits), (score, bits));
            assert_eq!(left.header[..header.len()], *header);
            let elected = belt::elect(1, &left.words).unwrap();
            assert_eq!((elected.gm_type, elected.model, elected.score), (gm_type, report.models[6], report.score));
            assert_eq!(belt::mean_sq_residual(&report.models[6].x_first(gm_type), &left.words), Ok(report.score));
            let read = belt::read_global_motion_params(&left.header, 5, 1, &handed.prior).unwrap();
            assert_eq!((read.types, read.models, read.bits), (report.types, report.models, report.bits));
            let (mut back, mut classes) = (vec![0; 16], vec![0; 16]);
            assert_eq!(belt::read_both(&left.blocks, &mut back, &mut classes), Ok(Frame { number: 5, samples: 16 }));
            assert_eq!((back, classes), (left.words, handed.classes));
        }
    }
}

/// The words of the classes that a set names, in their order.
fn named(set: ClassSet, words: &[u32], classes: &[u8]) -> Vec<u32> {
    words.iter().zip(classes).filter(|&(_, &class)| set.names(class)).map(|(&word, _)| word).collect()
}

/// Four blocks of fibre that move by ten pels to the right, and four of film that move by five pels up, their words with
/// these class bits.
fn fibre_and_film(class_bits: u32) -> (Vec<u32>, Vec<u8>) {
    let fibre = (0..4).map(|column| column << 20 | 223 << 11 | 303 << 2);
    let film = (0..4).map(|column| 1 << 26 | column << 20 | 183 << 11 | 223 << 2);
    (fibre.chain(film).map(|word| word | class_bits).collect(), [[FIBRE; 4], [FILM; 4]].concat())
}

/// Every call by class on fibre and film, by what is written of it.
#[test]
fn a_set_names_what_is_fitted() {
    for class_bits in [0, 3] {
        let (words, classes) = fibre_and_film(class_bits);
        for (set, [u, v], energy, stored) in [
            (ClassSet::of(&[FIBRE]), [10.0, 0.0], 100.0, [0, 655_360]),
            (ClassSet::of(&[FILM]), [0.0, -5.0], 25.0, [-327_680, 0]),
            (ClassSet::of(&[FIBRE, FILM]), [5.0, -2.5], 62.5, [0, 0]),
            (ClassSet::ALL, [5.0, -2.5], 62.5, [0, 0]),
        ] {
            let fitted = belt::fit_by_class(set, 1, &words, &classes).unwrap();
            assert_eq!((fitted.gm_type, fitted.numbers), (1, [u, v, 0.0, 0.0, 0.0, 0.0]));
            let model = belt::quantize_by_class(set, &fitted, 1, &words, &classes).unwrap();
            assert_eq!((model.shift().u, model.shift().v), (u, v));
            assert_eq!(belt::score_by_class(set, &Model::IDENTITY, &words, &classes), Ok(energy));
            let elected = belt::elect_by_class(set, 1, &words, &classes).unwrap();
            assert_eq!((elected.gm_type, &elected.model.0[..2]), (u8::from(stored != [0, 0]), &stored[..]));
            assert_eq!(elected.score, if elected.gm_type == 0 { energy } else { 0.0 });
            let trimmed = belt::fit_trimmed_by_class(set, 1, &words, &classes).unwrap();
            let used = named(set, &words, &classes).len();
            assert_eq!((trimmed.fitted, trimmed.used), (fitted, used));
            let trimmed = belt::quantize_trimmed_by_class(set, 1, 1, &words, &classes).unwrap();
            assert_eq!((trimmed.model, trimmed.used), (model, used));
        }
        let fibre = ClassSet::of(&[FIBRE]);
        assert_eq!(belt::fit_trimmed_by_class(fibre, 2, &words, &classes), Err(Refusal::TooFew));
        // a set with no sample present
        let none = ClassSet::of(&[RIGID_PLASTIC]);
        let fitted = belt::fit_by_class(none, 1, &words, &classes).unwrap();
        assert!(fitted.numbers[0].is_nan() && fitted.numbers[1].is_nan());
        assert_eq!(belt::quantize_by_class(none, &fitted, 1, &words, &classes), Ok(Model::IDENTITY));
        assert_eq!(belt::score_by_class(none, &Model([9; 6]), &words, &classes), Ok(0.0));
        assert_eq!(belt::fit_by_class(none, 2, &words, &classes), Err(Refusal::Singular));
        assert_eq!(belt::fit_trimmed_by_class(none, 1, &words, &classes), Err(Refusal::TooFew));
        let elected = belt::elect_by_class(none, 1, &words, &classes).unwrap();
        assert_eq!((elected.gm_type, elected.score), (0, 0.0));
    }
}

/// By every set the calls answer as those without one do for the words that it names, whatever the others are; by all five
/// as for the whole list.
#[test]
fn other_samples_play_no_part() {
    let reference = noisy_plane(112, 96);
    let handed = Handed::new(moved(&reference, 112, 96, 2, -5), reference, 112, 96, 1);
    let mut left = Buffers::new(112, 96);
    belt::job(&handed.task(), &mut left.lend()).expect("no row refuses");
    let (mut words, classes) = (left.words, handed.classes);
    for (word, class) in words.iter_mut().zip(&classes) {
        // each class moves on its own, and a few samples of it on theirs
        *word = word.wrapping_add(u32::from(*class) * 9 << 2).wrapping_add((*word >> 20 & 7) << 11);
    }
    for set in (1..=31).map(ClassSet::from_bits) {
        let own = named(set, &words, &classes);
        let mut others = words.clone();
        for (word, class) in others.iter_mut().zip(&classes) {
            *word = if set.names(*class) { *word | 3 } else { !*word };
        }
        assert_eq!(own.len() == words.len(), set == ClassSet::ALL);
        for words in [&words, &others] {
            for gm_type in 1..=3 {
                let fitted = belt::fit_by_class(set, gm_type, words, &classes);
                assert_eq!(fitted, fit(gm_type, &own));
                let fitted = fitted.unwrap();
                let model = belt::quantize_by_class(set, &fitted, 1, words, &classes);
                assert_eq!(model, belt::quantize_model(&fitted, 1, &own));
                let model = model.unwrap();
                assert_eq!(belt::score_by_class(set, &model, words, &classes), belt::mean_sq_residual(&model, &own));
                assert_eq!(belt::fit_trimmed_by_class(set, gm_type, words, &classes), belt::fit_trimmed(gm_type, &own));
                let trimmed = belt::quantize_trimmed_by_class(set, gm_type, 0, words, &classes);
                assert_eq!(trimmed, belt::quantize_trimmed(gm_type, 0, &own));
            }
            assert_eq!(belt::elect_by_class(set, 1, words, &classes), belt::elect(1, &own));
        }
    }
}

/// The same over lent samples: those of the words that are named, whatever numbers stand in the others.
#[test]
fn other_lent_samples_play_no_part() {
    let reference = noisy_plane(112, 96);
    let handed = Handed::new(moved(&reference, 112, 96, 2, -5), reference, 112, 96, 1);
    let mut left = Buffers::new(112, 96);
    belt::job(&handed.task(), &mut left.lend()).expect("no row refuses");
    let (words, classes) = (left.words, handed.classes);
    let made: Vec<_> = words.iter().map(|&word| MotionSample::of_word(word)).collect();
    let strange = MotionSample { x: f64::NAN, y: f64::INFINITY, u: -0.0, v: 1e300 };
    for set in (1..=31).map(ClassSet::from_bits) {
        let mut others = made.clone();
        for (sample, class) in others.iter_mut().zip(&classes) {
            if !set.names(*class) {
                *sample = strange;
            }
        }
        for samples in [&made, &others] {
            for gm_type in 1..=3 {
                let fitted = belt::fit_samples_by_class(set, gm_type, samples, &classes);
                assert_eq!(fitted, belt::fit_by_class(set, gm_type, &words, &classes));
                let fitted = fitted.unwrap();
                let model = belt::quantize_samples_by_class(set, &fitted, 1, samples, &classes);
                assert_eq!(model, belt::quantize_by_class(set, &fitted, 1, &words, &classes));
                let model = model.unwrap();
                let score = belt::score_samples_by_class(set, &model, samples, &classes);
                assert_eq!(score, belt::score_by_class(set, &model, &words, &classes));
                let trimmed = belt::fit_trimmed_samples_by_class(set, gm_type, samples, &classes);
                assert_eq!(trimmed, belt::fit_trimmed_by_class(set, gm_type, &words, &classes));
                let trimmed = belt::quantize_trimmed_samples_by_class(set, gm_type, 0, samples, &classes);
                assert_eq!(trimmed, belt::quantize_trimmed_by_class(set, gm_type, 0, &words, &classes));
            }
            let elected = belt::elect_samples_by_class(set, 1, samples, &classes);
            assert_eq!(elected, belt::elect_by_class(set, 1, &words, &classes));
        }
    }
}

/// Jobs on the bowl that name a set: what they report, what they leave, and that every sample is stored.
#[test]
fn bowls_by_class() {
    let shifted = |r, c| (r + 2, c - 3);
    let shift = |set: ClassSet, asked: u8, trim: u8, elect: u8| {
        let mut handed = bowl_job(shifted, asked);
        (handed.settings.set, handed.settings.trim, handed.settings.elect) = (set, trim, elect);
        handed
    };
    let three = ClassSet::of(&[UNSORTED, FIBRE, FILM]);
    let elections: [(fn(i32, i32) -> (i32, i32), ClassSet, u8, [i32; 6], u64, usize); 3] = [
        (zoomed, three, 2, [-29696, -31744, 69644, -38, 38, 69644], 0x3F54_6E6C_E666_6666, 57),
        (|r, c| (r, c + r / 8), three, 3, [9216, -86016, 64810, 7296, 4182, 64256], 0x3FF4_119E_0D86_6666, 109),
        (shifted, ClassSet::of(&[RIGID_PLASTIC]), 0, Model::IDENTITY.0, 0x4029_AD55_5555_5555, 7),
    ];
    for (place, set, gm_type, model, score, bits) in elections {
        let mut handed = bowl_job(place, 0);
        (handed.settings.set, handed.settings.elect) = (set, 1);
        let mut left = Buffers::new(64, 64);
        left.header.fill(0xFF);
        let report = belt::job(&handed.task(), &mut left.lend()).expect("no row refuses");
        assert_eq!((report.types[6], report.models[6]), (gm_type, StoredModel(model)));
        assert_eq!((report.score.to_bits(), report.bits, report.samples), (score, bits, 16));
        let elected = belt::elect_by_class(set, 1, &left.words, &handed.classes).unwrap();
        assert_eq!((elected.gm_type, elected.model, elected.score), (gm_type, report.models[6], report.score));
        let (mut back, mut classes) = (vec![0; 16], vec![0; 16]);
        assert_eq!(belt::read_both(&left.blocks, &mut back, &mut classes), Ok(Frame { number: 5, samples: 16 }));
        assert_eq!((&back, &classes), (&left.words, &handed.classes));
        if gm_type == 0 {
            assert_eq!(left.header[..2], [0xF8, 0x00]);
            assert_eq!(left.blocks[508..512], [0x5B, 0xAF, 0xD4, 0x27]);
        }
    }
    // three samples are too few to trim, and nothing is written
    let before = guarded(64, 64);
    let mut after = before.clone();
    let few = shift(ClassSet::of(&[RIGID_PLASTIC]), 1, 1, 0);
    assert_eq!(belt::job(&few.task(), &mut after.lend()), Err(Refusal::TooFew));
    assert_eq!(after, before);
    // no sample of the class: there were samples, so 6 leaves half planes and words
    for gm_type in [2, 3] {
        let mut none = shift(ClassSet::of(&[METAL]), gm_type, 0, 0);
        none.classes.iter_mut().for_each(|class| *class %= METAL);
        let (mut after, mut whole) = (before.clone(), before.clone());
        assert_eq!(belt::job(&none.task(), &mut after.lend()), Err(Refusal::Singular));
        none.settings.set = ClassSet::ALL;
        belt::job(&none.task(), &mut whole.lend()).expect("no row refuses");
        assert_ne!(after, before);
        let Buffers { blocks, header, .. } = before.clone();
        assert_eq!(after, Buffers { blocks, header, ..whole });
    }
    // and a translation is the identity's numbers, scored over nothing
    let mut none = shift(ClassSet::of(&[METAL]), 1, 0, 0);
    none.classes.iter_mut().for_each(|class| *class %= METAL);
    let report = belt::job(&none.task(), &mut Buffers::new(64, 64).lend()).expect("no row refuses");
    assert_eq!((report.types[6], report.models[6], report.score), (1, StoredModel::IDENTITY, 0.0));
}

/// Jobs that name a set have the model and the score of the calls by class, and leave what the job of every class leaves
/// but for the header.
#[test]
fn jobs_by_class() {
    let planes = (smooth_plane(112, 80, [3.0, -2.0, 1.01, 0.02, -0.02, 1.01]), smooth_plane(112, 80, STILL));
    for gm_type in 1..=3 {
        let mut handed = Handed::new(planes.0.clone(), planes.1.clone(), 112, 80, gm_type);
        let (_, all) = run(&handed);
        for set in (1..=31).map(ClassSet::from_bits) {
            handed.settings.set = set;
            let mut left = guarded(112, 80);
            let report = belt::job(&handed.task(), &mut left.lend()).expect("no row refuses");
            let words = &left.words[..35];
            let fitted = belt::fit_by_class(set, gm_type, words, &handed.classes).unwrap();
            let model = belt::quantize_by_class(set, &fitted, 1, words, &handed.classes).unwrap();
            assert_eq!(report.models[2], model.row_first(gm_type));
            assert_eq!(Ok(report.score), belt::score_by_class(set, &model, words, &handed.classes));
            let read = belt::read_global_motion_params(&left.header, 5, 1, &handed.prior).unwrap();
            assert_eq!((read.types, read.models, read.bits), (report.types, report.models, report.bits));
            if set != ClassSet::ALL {
                left.header.clone_from(&all.header);
            }
            assert_eq!(left, all);
        }
    }
}

/// Planes without a whole block, with one and with three: the other types have too few samples, and none is refused.
#[test]
fn few_samples_elect_the_identity() {
    for (width, samples) in [(15, 0), (16, 1), (48, 3)] {
        let reference = noisy_plane(width, 16);
        let mut handed = Handed::new(moved(&reference, width, 16, 0, 4), reference, width, 16, 3);
        handed.settings.elect = 1;
        let before = guarded(width, 16);
        let mut left = before.clone();
        let report = belt::job(&handed.task(), &mut left.lend()).expect("no row refuses");
        let energy = belt::mean_sq_residual(&Model::IDENTITY, &left.words[..samples]).unwrap();
        assert_eq!((report.types, report.models), ([0; 7], belt::IDENTITIES));
        assert_eq!((report.score, report.bits, report.samples), (energy, 7, samples));
        assert_eq!(belt::elect(1, &left.words[..samples]).map(|elected| elected.score), Ok(energy));
        if samples == 0 {
            assert_eq!(Buffers { header: before.header.clone(), ..left }, before);
        }
    }
}

#[test]
fn a_zoom_is_near_what_was_drawn() {
    let planes = (smooth_plane(208, 208, [0.0, 0.0, 1.02, 0.0, 0.0, 1.02]), smooth_plane(208, 208, STILL));
    let (report, _) = run(&Handed::new(planes.0, planes.1, 208, 208, 2));
    let model = report.models[2].x_first(2);
    assert!((model.zoom() - 1.02).abs() < 0.005, "{model:?}");
    assert_eq!((model.0[4], model.0[5]), (-model.0[3], model.0[2]));
}

#[test]
fn a_turn_is_near_what_was_drawn() {
    let (sine, cosine) = 1.0f64.to_radians().sin_cos();
    let turned = smooth_plane(208, 208, [0.0, 0.0, cosine, -sine, sine, cosine]);
    for gm_type in [2, 3] {
        let handed = Handed::new(turned.clone(), smooth_plane(208, 208, STILL), 208, 208, gm_type);
        let (report, left) = run(&handed);
        let model = report.models[2].x_first(gm_type);
        assert!((model.degrees() - 1.0).abs() < 0.1, "{model:?}");
        assert!((model.zoom() - 1.0).abs() < 0.005, "{model:?}");
        assert!(model.agreeing(&left.words[..report.samples], 0.5) > report.samples / 2);
    }
}

#[test]
fn a_pan_beyond_the_range_is_seen_by_what_agrees() {
    let reference = noisy_plane(320, 160);
    let agreeing = |dx: i64| {
        let input = moved(&reference, 320, 160, 0, dx);
        let (report, left) = run(&Handed::new(input, reference.clone(), 320, 160, 1));
        report.models[2].x_first(1).agreeing(&left.words[..report.samples], 0.25)
    };
    assert!(agreeing(20) >= 150, "of 200 blocks nearly all");
    assert!(agreeing(40) <= 50, "of 200 blocks few");
}

#[test]
fn the_two_orders_differ_for_a_translation_alone() {
    let numbers = [1, 2, 3, 4, 5, 6];
    for gm_type in 0..=3 {
        let first = if gm_type == 1 { [2, 1] } else { [1, 2] };
        assert_eq!(Model(numbers).row_first(gm_type).0[..2], first);
        assert_eq!(Model(numbers).row_first(gm_type).0[2..], numbers[2..]);
        assert_eq!(Model(numbers).row_first(gm_type).x_first(gm_type), Model(numbers));
    }
}

#[test]
fn other_models_and_priors_are_carried() {
    let planes = (smooth_plane(64, 64, [1.0, 1.0, 1.0, 0.0, 0.0, 1.0]), smooth_plane(64, 64, STILL));
    let mut handed = Handed::new(planes.0, planes.1, 64, 64, 3);
    handed.types = vec![3, 2, 1, 0, 1, 3];
    let affine = [1024, -2048, 65538, 2, -4, 65534];
    let rotzoom = [-1024, 2048, 65546, -6, 6, 65546];
    let translation = [8192, -16384, 65536, 0, 0, 65536];
    handed.models = [affine, rotzoom, translation, Model::IDENTITY.0, translation, affine].map(StoredModel).to_vec();
    handed.prior = vec![StoredModel([4_000_000, -77, 65536 + 8192, -8192, 5, 65536 - 8192]); 7];
    run(&handed);
}

#[test]
fn more_than_one_block() {
    let planes = (smooth_plane(192, 176, [0.5, 0.0, 1.0, 0.01, -0.01, 1.0]), smooth_plane(192, 176, STILL));
    let (report, _) = run(&Handed::new(planes.0, planes.1, 192, 176, 2));
    assert_eq!(report.samples, 132);
}

#[test]
fn a_plane_without_a_whole_block_touches_no_working_memory() {
    let handed = Handed::new(noisy_plane(15, 40), noisy_plane(15, 40), 15, 40, 1);
    let before = guarded(15, 40);
    let mut after = before.clone();
    let report = belt::job(&handed.task(), &mut after.lend()).unwrap();
    assert_eq!((report.samples, report.score), (0, 0.0));
    assert_eq!(Buffers { header: before.header.clone(), ..after.clone() }, before);
    let read = belt::read_global_motion_params(&after.header, handed.settings.start, 1, &handed.prior).unwrap();
    assert_eq!((read.types, read.models, read.bits), (report.types, report.models, report.bits));
}
