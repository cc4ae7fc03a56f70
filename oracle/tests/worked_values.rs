//! The worked values of docs/RULES.md that the Rust can answer.

use oracle::blocks::{self, ONE, TWO};
use oracle::list::tilted_words;
use oracle::{
    IDENTITY, NOT_FINITE, TOO_FEW, coefficient, elect_or_row, fit, quantize_global_param, quantize_model, read_header,
    sample_of, sample_words, score, search, trimmed, trimmed_or_row, write_header,
};

const TRANSLATION: u8 = 1;
const ROTZOOM: u8 = 2;
const AFFINE: u8 = 3;

#[test]
fn quantized_numbers() {
    let alpha = |value| quantize_global_param(AFFINE, true, 2, value);
    assert_eq!([65536, 65537, 65535, 73729, i32::MIN].map(alpha), [65536, 65538, 65534, 73728, 57344]);
    let high = |value| quantize_global_param(TRANSLATION, true, 0, value);
    assert_eq!([4095, 4096, -4096, 4198400].map(high), [0, 8192, -8192, 4194304]);
    let low = |value| quantize_global_param(TRANSLATION, false, 0, value);
    assert_eq!([8191, 8192].map(low), [0, 16384]);
}

#[test]
fn coefficient_bits() {
    let high = |prior, ordinal: i32| coefficient(TRANSLATION, true, 0, prior, ordinal * 8192);
    assert_eq!([0, 1, -1, 4, 512].map(|ordinal| high(0, ordinal)), ["0000", "0010", "0001", "10000", &"1".repeat(17)]);
    assert_eq!(high(4194304, 511), "0001");
    assert_eq!(coefficient(AFFINE, true, 3, 0, 4096 * 2), "1".repeat(23));
}

#[test]
fn header_of_one_translation() {
    let prior = [IDENTITY; 7];
    let mut models = prior;
    models[0] = [8192, -8192, 65536, 0, 0, 65536];
    let types = [TRANSLATION, 0, 0, 0, 0, 0, 0];
    for (start, bytes) in [
        [0xa4, 0x20, 0x00],
        [0x52, 0x10, 0x00],
        [0x29, 0x08, 0x00],
        [0x14, 0x84, 0x00],
        [0x0a, 0x42, 0x00],
        [0x05, 0x21, 0x00],
        [0x02, 0x90, 0x80],
        [0x01, 0x48, 0x40],
    ]
    .into_iter()
    .enumerate()
    {
        assert_eq!(write_header(&types, &models, true, &prior, start), (bytes.to_vec(), 17));
        assert_eq!(read_header(&bytes, start, true, &prior), Some((types, models, 17)));
    }
    assert_eq!(read_header(&[0xa4, 0x20, 0x00], 0, true, &prior), Some((types, models, 17)));
    assert_eq!(read_header(&[0xa4, 0x20], 0, true, &prior), None);
    assert_eq!(read_header(&[], usize::MAX, true, &prior), None);
}

#[test]
fn two_orders_of_words() {
    let forwards = tilted_words().into_iter().map(sample_of).collect::<Vec<_>>();
    let backwards = forwards.iter().rev().copied().collect::<Vec<_>>();
    for kind in [TRANSLATION, ROTZOOM, AFFINE] {
        assert_eq!(fit(kind, &forwards).unwrap().map(f64::to_bits), fit(kind, &backwards).unwrap().map(f64::to_bits));
    }
    let model = fit(AFFINE, &forwards).unwrap();
    let params = quantize_model(&model, AFFINE, true, &forwards);
    assert_eq!(params, [-272384, 608256, 65466, -136, 0, 65536]);
    assert_eq!(params, quantize_model(&model, AFFINE, true, &backwards));
    assert_eq!(score(&params, &forwards).to_bits(), 0x4096_6900_7e75_a16b);
    assert_eq!(score(&params, &backwards).to_bits(), 0x4096_6900_7e75_a16f);
}

#[test]
fn two_orders_of_free_samples() {
    let mean = |us: [f64; 3]| fit(TRANSLATION, &us.map(|u| [7.5, 7.5, u, 0.0])).unwrap()[0];
    assert_eq!([mean([1e16, 1.0, -1e16]), mean([1e16, -1e16, 1.0])], [0.0, 1.0 / 3.0]);
}

#[test]
fn flat_pairs() {
    let flat = |width: usize, height: usize| {
        let plane = vec![100; width * height];
        search(&plane, &plane, width, height)
    };
    assert_eq!(flat(16, 16), [[7.5, 7.5, 0.0, 0.0]]);
    assert!(flat(15, 16).is_empty());
    assert_eq!(flat(33, 16), [[7.5, 7.5, 0.0, 0.0], [23.5, 7.5, 0.0, 0.0]]);
}

/// The plain count finds the Rust's motions on its way.
#[test]
fn rows_added() {
    let mut found = Vec::new();
    for (width, height, input, reference, rows) in oracle::rows::worked() {
        let eighths = |pels: f64| (pels * 8.0) as i64;
        let samples = search(&input, &reference, width, height);
        let motions: Vec<_> = samples.into_iter().map(|[_, _, u, v]| (eighths(v), eighths(u))).collect();
        assert_eq!(oracle::rows::search(&input, &reference, width, height), (rows, motions.clone()));
        found.push(motions);
    }
    assert!(found[..5].iter().all(|motions| motions == &[(0, 0)]));
    assert_eq!(found[5..8], [[(20, 4)], [(4, 5)], [(4, 16)]]);
    assert_eq!(found[8], [(16, 16); 4]);
}

#[test]
fn shear_by_the_clause() {
    for (linear, valid, numbers) in [
        ([65536, 8192, -8192, 65536], true, [0, 8192, -8192, 1024]),
        ([67584, 8192, 0, 65536], false, [2048, 8192, 0, 0]),
        ([67520, 8192, 0, 65536], true, [1984, 8192, 0, 0]),
        ([65536, 0, 8192, 73696], false, [0, 0, 8192, 8192]),
        ([73728, 4682, -4682, 73728], true, [8192, 4672, -4160, 8512]),
        ([65536, -32, 0, 65536], true, [0, -64, 0, 0]),
        ([58790, -1166, -6684, 73728], true, [-6720, -1152, -7488, 8064]),
    ] {
        let [p2, p3, p4, p5] = linear;
        assert_eq!(oracle::shear(&[0, 0, p2, p3, p4, p5]), Some((valid, numbers)));
    }
}

#[test]
fn blocks_of_both_forms() {
    let check = |block: &[u8]| u32::from_be_bytes(block[blocks::CHECK..].try_into().expect("four bytes"));
    let film = blocks::write(TWO, 5, &[(0x0006_fb7c, 4)]);
    assert_eq!(film[..13], [0, 5, 2, 1, 0, 1, 0, 0, 0, 6, 0xfb, 0x7c, 4]);
    assert_eq!(check(&film), 0x040c_fd7e);
    assert_eq!(blocks::text(&film), "frame 5 block 0 count 1\n0 0 0 0 4\n");
    assert_eq!(check(&blocks::write(TWO, 5, &[(0x0006_fb7c, 0)])), 0x000c_fd7e);
    assert_eq!(check(&blocks::write(ONE, 5, &[(0x0006_fb7c, 3)])), 0x000c_fc81);
    let samples: Vec<blocks::Sample> =
        (0..130).map(|q| (q / 64 << 26 | q % 64 << 20 | 223 << 11 | (223 + q % 5) << 2, (q % 4) as u8)).collect();
    for (form, counts, checks) in
        [(ONE, [125, 5], [0xe851_d1ac, 0x285b_eaa2]), (TWO, [100, 30], [0x1f12_360f, 0xb77b_7669])]
    {
        let stored = blocks::write(form, 7, &samples);
        assert_eq!([stored[3], stored[blocks::BLOCK + 3]], counts);
        assert_eq!([&stored[..blocks::BLOCK], &stored[blocks::BLOCK..]].map(check), checks);
        let other = if form == ONE { TWO } else { ONE };
        assert_eq!(blocks::convert(form, other, &stored, 1024), Ok(blocks::write(other, 7, &samples)));
        assert_eq!(blocks::convert(form, other, &stored, 1023), Err(3));
        assert_eq!(blocks::convert(other, form, &stored, 1024), Err(11));
    }
}

#[test]
fn practice_belts() {
    use oracle::practice::{planes, refusal};

    let mut generator = oracle::list::Lcg(1);
    let states = [(); 3].map(|()| {
        generator.step();
        generator.0
    });
    assert_eq!(states, [1015568748, 1586005467, 2165703038]);
    assert_eq!(planes(1, 2, 2, 1, -1), (vec![33046; 4], vec![15496, 24200, 33046, 46195]));
    let (input, reference) = planes(u32::MAX, 4, 2, -1, 1);
    assert_eq!(reference, [15445, 12311, 8835, 41343, 47029, 57284, 59813, 47440]);
    assert_eq!(input, [12311, 8835, 41343, 41343, 12311, 8835, 41343, 41343]);
    let (input, reference) = planes(1, 64, 64, 3, -5);
    let sum = |plane: &[u16]| plane.iter().map(|&pel| u32::from(pel)).sum::<u32>();
    assert_eq!((sum(&reference), sum(&input), reference[4095]), (133584103, 134109200, 34182));
    let motions = search(&input, &reference, 64, 64).into_iter().map(|[_, _, u, v]| [v * 8.0, u * 8.0]);
    let printed = include_str!("../../crates/practice_belt/stdout");
    let found = printed.lines().map(|line| {
        let numbers: Vec<f64> = line.split(' ').map(|number| number.parse().unwrap()).collect();
        assert_eq!(numbers[4..], [24.0, -40.0]);
        [numbers[2], numbers[3]]
    });
    assert!(motions.eq(found));
    let rows = [
        (1, 1, 0, -25, 1, 18),
        (1025, 1, 0, -25, 1, 1),
        (5, 5, 25, 0, 10, 18),
        (5, 5, 24, 0, 10, 3),
        (0, 1024, 0, 0, 0, 0),
    ];
    for (width, height, dy, dx, room, row) in rows {
        assert_eq!(refusal(width, height, dy, dx, room, room), row);
    }
}

/// Samples of the first row of blocks that move by eighths to the right.
fn across(eighths: &[i32]) -> Vec<[f64; 4]> {
    let word = |(place, &u): (usize, &i32)| (place as u32) << 20 | 223 << 11 | ((223 + u) as u32) << 2;
    eighths.iter().enumerate().map(word).map(sample_of).collect()
}

#[test]
fn fits_after_trimming() {
    let answer = |eighths: &[i32]| trimmed(TRANSLATION, true, &across(eighths)).map(|t| (t.model[0], t.used));
    assert_eq!(answer(&[0, 0, 0, 0, 80]), Some((0.0, 4)));
    assert_eq!(answer(&[0, 0, 0, 80, -40]), Some((1.0, 5)));
    assert_eq!(answer(&[0, 0, 0, 80]), Some((2.5, 4)));
    assert_eq!(answer(&[8, -8, 0, 0, 0, 0, 0, 0]), Some((0.0, 8)));
    assert_eq!(answer(&[9, -9, 0, 0, 0, 0, 0, 0]), Some((0.0, 6)));
    assert_eq!(answer(&[-27, 52, 15, 21, 7, -2]), Some((0.35, 5)));
    let mut lined = across(&[0; 10]);
    lined.extend(
        (3..7).map(|column| sample_of(1 << 26 | column << 20 | 223 << 11 | [23, 423][column as usize % 2] << 2)),
    );
    assert!(trimmed(AFFINE, true, &lined).is_none() && fit(AFFINE, &lined).is_some());
    assert!(trimmed(ROTZOOM, true, &lined).is_some());
    for (kind, least) in [(TRANSLATION, 4), (ROTZOOM, 6), (AFFINE, 8)] {
        assert!(trimmed(kind, true, &across(&vec![0; least - 1])).is_none());
        assert_eq!(trimmed(kind, true, &vec![across(&[0])[0]; least]).is_some(), kind == TRANSLATION);
    }
}

/// A sample that moves by so much, among so many in all, at rest and at one place.
#[test]
fn residuals_that_are_not_finite() {
    let row = |count, u| {
        let mut samples = vec![[0.0; 4]; count];
        samples[0][2] = u;
        trimmed_or_row(TRANSLATION, true, &samples).map(|trimmed| trimmed.used)
    };
    assert_eq!([row(4, 1e150), row(4, 1e200), row(4, f64::NAN)], [Ok(4), Err(NOT_FINITE), Err(NOT_FINITE)]);
    assert_eq!([row(4, f64::INFINITY), row(3, f64::NAN), row(3, 0.0)], [Err(NOT_FINITE), Err(TOO_FEW), Err(TOO_FEW)]);
}

/// Each list turns on one rule: the floor, the least list, 0.8 without 0.02, 0.02 without 0.8, the held type and not the one
/// before, the gate, the shear.
#[test]
fn elections() {
    let elect = |samples: &[[f64; 4]]| {
        let elected = elect_or_row(true, samples).expect("every residual is finite");
        (elected.kind, elected.params[0], elected.params[1])
    };
    assert_eq!([4, 3].map(|u| elect(&across(&[u; 4]))), [(1, 0, 32768), (0, 0, 0)]);
    assert_eq!(elect(&across(&[80; 3])), (0, 0, 0));
    assert_eq!(elect(&vec![across(&[80])[0]; 8]), (1, 0, 655360));
    let words = |words: &[u32]| elect(&words.iter().map(|&word| sample_of(word)).collect::<Vec<_>>());
    let ratio = [0x5A364, 0x15A364, 0x25AB64, 0x405A364, 0x415A364, 0x425AB64, 0x805A368, 0x815AB68, 0x825AB68];
    let margin = [0x74B68, 0x174B6C, 0x273B84, 0x4073B98, 0x4173B74, 0x4275370, 0x807537C, 0x8175384, 0x8272B88];
    let held = [0x7FC34, 0x17C430, 0x27CC18, 0x407E44C, 0x417C434, 0x4281448, 0x8081C2C, 0x817CC60, 0x827EC3C];
    let gate = [0x70BBC, 0x172BBC, 0x275BA4, 0x4073B74, 0x4171BBC, 0x427038C, 0x80703BC, 0x816FBBC, 0x8273BB0];
    assert_eq!([words(&ratio), words(&margin)], [(1, -352256, -49152), (1, 73728, 0)]);
    let shear = [
        0x6FBAC, 0x1693E0, 0x262C14, 0x35CC44, 0x40763E0, 0x416FC14, 0x4269444, 0x4362C78, 0x807CC14, 0x8176444,
        0x826FC78, 0x83694AC, 0xC082C44, 0xC17CC78, 0xC2764AC, 0xC36FCE0,
    ];
    assert_eq!([words(&held), words(&gate), words(&shear)], [(3, 359424, 234496), (0, 0, 0), (1, 0, 409600)]);
    let flagged = |high| elect_or_row(high, &across(&[13; 4])).map(|elected| elected.params[1]);
    assert_eq!([flagged(false), flagged(true)], [Ok(114688), Ok(106496)]);
}

/// An energy that is infinite or not-a-number; 16 comes from a type that isn't passed over for its list.
#[test]
fn elections_of_any_samples() {
    let row = |us: &[f64]| {
        let samples: Vec<[f64; 4]> =
            us.iter().enumerate().map(|(i, &u)| [7.5 + 16.0 * i as f64, 7.5, u, 0.0]).collect();
        elect_or_row(true, &samples).map(|elected| elected.kind)
    };
    assert_eq!(row(&[1.2, -1.2, 1.2, -1.2].map(|u| u * 1e154)), Ok(0));
    assert_eq!([row(&[f64::NAN, 0.0, 0.0]), row(&[f64::NAN, 0.0, 0.0, 0.0])], [Ok(0), Err(NOT_FINITE)]);
    assert_eq!([row(&[]), row(&[1e200, 0.0, 0.0, 0.0])], [Ok(0), Err(NOT_FINITE)]);
}

/// A 64×64 bowl moved, turned, drawn together and slid: the elected model, its score, and its header from bit 5 on over FF.
#[test]
fn elections_of_bowls() {
    let bowl = |r: i32, c: i32| ((r.clamp(0, 63) - 31).pow(2) + 2 * (c.clamp(0, 63) - 29).pow(2)) as u16;
    let plane = |place: fn(i32, i32) -> (i32, i32)| -> Vec<u16> {
        (0..64 * 64).map(|i| place(i / 64, i % 64)).map(|(r, c)| bowl(r, c)).collect()
    };
    let reference = plane(|r, c| (r, c));
    let elected = |place| {
        let samples: Vec<_> = sample_words(&plane(place), &reference, 64, 64).into_iter().map(sample_of).collect();
        let elected = elect_or_row(true, &samples).expect("every residual is finite");
        let mut models = [IDENTITY; 7];
        models[6] = elected.params;
        let (bytes, bits) = write_header(&[0, 0, 0, 0, 0, 0, elected.kind], &models, true, &[IDENTITY; 7], 5);
        let bytes = bytes.iter().enumerate().map(|(i, &byte)| if i == 0 { byte | 0xf8 } else { byte });
        let hex: String = bytes.map(|byte| format!("{byte:02X}")).collect();
        (elected.kind, elected.params, elected.score.to_bits(), bits, hex)
    };
    let told = |kind, params, score, bits, hex: &str| (kind, params, score, bits, hex.to_string());
    assert_eq!(
        elected(|r, c| (r + 2, c - 3)),
        told(TRANSLATION, [131072, -196608, 65536, 0, 0, 65536], 0x3F68_0000_0000_0000, 27, "F81781CF")
    );
    assert_eq!(
        elected(|r, c| (r + c / 16 - 2, c - r / 16 + 1)),
        told(ROTZOOM, [95232, -160768, 65542, -4078, 4078, 65542], 0x3F4C_B15A_0000_0000, 61, "F81B7FDFB7E75F8E40")
    );
    let drawn = elected(|r, c| (r + r / 16, c + c / 16));
    assert_eq!((drawn.0, drawn.1), (ROTZOOM, [-29696, -30720, 69638, -22, 22, 69638]));
    assert_eq!((drawn.2, drawn.3), (0x3FB5_8AF3_0400_0000, 55));
    assert_eq!(
        elected(|r, c| (r, c + r / 8)),
        told(
            AFFINE,
            [-1024, -108544, 65742, 6708, 4826, 64626],
            0x3FF5_5DC0_3250_0000,
            100,
            "F813E9DFFD1A7FE5B5FD8D1FA980"
        )
    );
}

/// A 64×64 bowl, and the input that is it drawn together by a sixteenth.
#[test]
fn a_bowl_after_trimming() {
    let square = |at: usize, middle: i32| (at as i32 - middle).pow(2);
    let bowl = |r: usize, c: usize| (square(r.min(63), 31) + 2 * square(c.min(63), 29)) as u16;
    let places = || (0..64 * 64).map(|i| (i / 64, i % 64));
    let reference: Vec<u16> = places().map(|(r, c)| bowl(r, c)).collect();
    let input: Vec<u16> = places().map(|(r, c)| bowl(r + r / 16, c + c / 16)).collect();
    let words = sample_words(&input, &reference, 64, 64);
    let samples: Vec<_> = words.iter().map(|&word| sample_of(word)).collect();
    let written = |model: [i32; 6]| {
        let mut models = [IDENTITY; 7];
        models[6] = model;
        let bits = write_header(&[0, 0, 0, 0, 0, 0, ROTZOOM], &models, true, &[IDENTITY; 7], 5).1;
        (model, score(&model, &samples).to_bits(), bits)
    };
    let after = trimmed(ROTZOOM, true, &samples).expect("both fits are accepted");
    assert_eq!(after.used, 15);
    assert_eq!(written(after.params), ([-29696, -30720, 69638, -22, 22, 69638], 0x3FB5_8AF3_0400_0000, 55));
    let all = quantize_model(&fit(ROTZOOM, &samples).unwrap(), ROTZOOM, true, &samples);
    assert_eq!(written(all), ([-37888, -30720, 69678, 160, -160, 69678], 0x3FB2_B2BB_2200_0000, 63));
}
