//! The list for `worked_grid`: a count, then type, flag, slot, value and answer of `quantize_global_param`
//! for each case. The argument is the file to write.

use oracle::list::{Lcg, List};
use std::{env, io};

const SEED: u32 = 1;
const RANDOM_ORDINALS: usize = 6;

/// Type, flag, slot and value of the rules' worked quantizations.
const WORKED: [(u8, bool, usize, i32); 11] = [
    (3, true, 2, 65536),
    (3, true, 2, 65537),
    (3, true, 2, 65535),
    (3, true, 2, 73729),
    (3, true, 2, i32::MIN),
    (1, true, 0, 4095),
    (1, true, 0, 4096),
    (1, true, 0, -4096),
    (1, true, 0, 4198400),
    (1, false, 0, 8191),
    (1, false, 0, 8192),
];

fn main() -> io::Result<()> {
    let path = env::args().nth(1).expect("the argument is the file to write");
    let mut cases = WORKED.to_vec();
    let mut lcg = Lcg(SEED);
    for kind in 0..=3 {
        for high in [false, true] {
            for slot in 0..=5 {
                let values = edge_values(kind, high, slot, &mut lcg);
                cases.extend(values.iter().map(|&value| (kind, high, slot, value)));
            }
        }
    }
    let mut list = List::default();
    list.push(cases.len() as u32);
    for (kind, high, slot, value) in cases {
        list.push(u32::from(kind));
        list.push(u32::from(high));
        list.push(slot as u32);
        list.push_signed(value);
        list.push_signed(oracle::quantize_global_param(kind, high, slot, value));
    }
    list.write(path)
}

/// absBits and precBits, which say where the edges of rounding and of the range are.
fn bits(kind: u8, high: bool, slot: usize) -> (u32, u32) {
    match (kind, high, slot) {
        (1, true, 0 | 1) => (9, 3),
        (1, false, 0 | 1) => (8, 2),
        (_, _, 0 | 1) => (12, 6),
        _ => (12, 15),
    }
}

/// Each codable number and the tie above it, with both neighbours, for ordinals about 0, about both ends
/// and at random; and the limits of i32, where a sum of 32 bits would wrap.
fn edge_values(kind: u8, high: bool, slot: usize, lcg: &mut Lcg) -> Vec<i32> {
    let (abs_bits, prec_bits) = bits(kind, high, slot);
    let step = 1i32 << (16 - prec_bits);
    let centre = if slot % 3 == 2 { 65536 } else { 0 };
    let most = 1i32 << abs_bits;
    let mut ordinals = vec![-most - 1, -most, 1 - most, -2, -1, 0, 1, most - 2, most - 1, most, most + 1];
    ordinals.extend((0..RANDOM_ORDINALS).map(|_| i32::from(lcg.below(2 * most as u16)) - most));

    let codable = ordinals.iter().map(|ordinal| centre + ordinal * step);
    let mut middles: Vec<i32> = codable.flat_map(|value| [value, value + step / 2]).collect();
    for reach in [1, step / 2, 65535, 65536, 65536 + step / 2] {
        middles.extend([i32::MIN + reach, i32::MAX - reach]);
    }
    middles.iter().flat_map(|&middle| [middle - 1, middle, middle + 1]).collect()
}
