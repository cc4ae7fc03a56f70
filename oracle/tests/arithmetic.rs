//! What docs/RULES.md says of the Rust's arithmetic, held to this compiler's.

use oracle::list::Lcg;
use oracle::{
    canonical, fit, grid_number, half_plane, quantize_global_param, quantize_model, sample_of, score, solve3, word_of,
};
use std::hint::black_box;

const CASES: usize = 200_000;

/// Any bit pattern, with more than a fair share of specials.
fn any_float(lcg: &mut Lcg) -> f64 {
    const SPECIAL: [f64; 8] =
        [0.0, -0.0, f64::INFINITY, f64::NEG_INFINITY, f64::NAN, f64::MIN_POSITIVE, f64::MAX, 5e-324];
    match lcg.below(16) {
        i @ 0..8 => SPECIAL[usize::from(i)],
        8..12 => f64::from(lcg.word() as i32) / 4096.0,
        _ => f64::from_bits(u64::from(lcg.word()) << 32 | u64::from(lcg.word())),
    }
}

fn bits(value: f64) -> u64 {
    canonical(value).to_bits()
}

#[test]
fn powi_2_is_the_number_times_itself() {
    let mut lcg = Lcg(2);
    for _ in 0..CASES {
        let x = any_float(&mut lcg);
        assert_eq!(bits(x.powi(2)), bits(x * x), "{x:e}");
        assert_eq!(bits(black_box(x).powi(black_box(2))), bits(x * x), "{x:e}, exponent not known to the compiler");
    }
}

/// Half away from zero, from the exact fraction: below 2^52 a number less its floor is exact.
fn half_away(x: f64) -> f64 {
    let magnitude = x.abs();
    if magnitude.is_nan() || magnitude >= 4503599627370496.0 {
        return x;
    }
    let floor = magnitude.floor();
    (if magnitude - floor >= 0.5 { floor + 1.0 } else { floor }).copysign(x)
}

#[test]
fn round_goes_half_away_from_zero() {
    let mut lcg = Lcg(3);
    for _ in 0..CASES {
        let x = any_float(&mut lcg);
        let tie = f64::from(lcg.word() as i32) + 0.5;
        for x in [x, tie, tie.next_down(), tie.next_up(), 0.5f64.next_down(), -0.5, 4503599627370495.5] {
            assert_eq!(bits(black_box(x).round()), bits(half_away(x)), "{x:e}");
        }
    }
}

#[test]
fn grid_numbers() {
    let grid = |number: f64| grid_number(number / 65536.0);
    assert_eq!([0.5, -0.5, 1.5, 2.5, -2.5].map(grid), [1, -1, 2, 3, -3]);
    assert_eq!([2147483646.5, 2147483647.0, 2147483648.0].map(grid), [i32::MAX; 3]);
    assert_eq!([-2147483647.5, -2147483648.0, -2147483649.0].map(grid), [i32::MIN; 3]);
    assert_eq!([f64::NAN, f64::INFINITY, f64::NEG_INFINITY, -0.0].map(grid_number), [0, i32::MAX, i32::MIN, 0]);
}

/// The lines that are cut out of `quantize_model` give what the whole function uses.
#[test]
fn grid_number_is_quantize_models() {
    let mut lcg = Lcg(4);
    for _ in 0..CASES {
        let model: [f64; 6] = std::array::from_fn(|_| any_float(&mut lcg));
        let quantized = quantize_model(&model, 3, true, &[]);
        for slot in 2..6 {
            assert_eq!(quantized[slot], quantize_global_param(3, true, slot, grid_number(model[slot])), "{model:?}");
        }
    }
}

#[test]
fn refused_and_not_a_number_fits() {
    let nan = canonical(f64::NAN).to_bits();
    assert_eq!(fit(1, &[]).map(|m| [m[0].to_bits(), m[1].to_bits()]), Some([nan, nan]));
    assert_eq!(fit(2, &[]), None);
    assert_eq!(fit(3, &[]), None);
    assert_eq!(score(&oracle::IDENTITY, &[]), 0.0);
    let diagonal = |pivot: f64| [[pivot, 0.0, 0.0], [0.0, 1.0, 0.0], [0.0, 0.0, 1.0]];
    assert_eq!(solve3(diagonal(1e-9f64.next_down()), [1.0; 3]), None);
    assert!(solve3(diagonal(1e-9), [1.0; 3]).is_some());
    assert!(solve3(diagonal(f64::NAN), [1.0; 3]).is_some());
}

#[test]
fn words_and_samples() {
    assert_eq!(sample_of(0x0006_FB7C), [7.5, 7.5, 0.0, 0.0]);
    let mut lcg = Lcg(5);
    for word in lcg.words(CASES) {
        assert_eq!(word_of(&sample_of(word)), word & !3);
    }
}

#[test]
fn half_planes() {
    let (width, height) = (33, 17);
    let plane = Lcg(6).plane(width, height, 0xffff);
    let pel = |row: usize, column: usize| u32::from(plane[row * width + column]);
    let half = half_plane(&plane, width, height);
    assert_eq!(half.len(), 16 * 8);
    for (i, &value) in half.iter().enumerate() {
        let (row, column) = (2 * (i / 16), 2 * (i % 16));
        let sum = pel(row, column) + pel(row, column + 1) + pel(row + 1, column) + pel(row + 1, column + 1);
        assert_eq!(u32::from(value), (sum + 2) / 4);
    }
}
