//! The list for `worked_price`: a count, then for each case type, flag, slot, prior, refusal, how many lengths are listed, and
//! twenty counts. A list counts the codes that the Rust writes for every ordinal of the slot; the refusals come last.
//! The argument is the file to write.

use oracle::list::{Lcg, List};
use std::{env, io};

/// Bits of the shortest code, and lengths of the longest list.
const SHORTEST: usize = 4;
const MOST_LENGTHS: usize = 20;

/// Type, flag, slot, prior, row.
const REFUSED: [(u32, u32, u32, i32, u32); 16] = [
    (2, 1, 3, 8193, 8),
    (2, 0, 3, -8193, 8),
    (2, 1, 4, 99999, 5),
    (1, 1, 2, 65536, 5),
    (1, 0, 5, 0, 5),
    (0, 0, 0, 0, 5),
    (0, 1, 5, 65536, 5),
    (3, 2, 6, 0, 4),
    (3, 1, 6, 0, 5),
    (3, 1, 255, 0, 5),
    (3, 0, 5, 57343, 8),
    (3, 0, 2, 73729, 8),
    (1, 0, 0, 4_194_305, 8),
    (3, 1, 1, i32::MIN, 8),
    (4, 0, 0, 0, 4),
    (4, 2, 9, i32::MAX, 4),
];

/// absBits and the distance of two codable numbers, by docs/RULES.md, 'Grid'.
fn row(kind: u8, high: bool, slot: usize) -> (u32, i32) {
    match (kind, slot) {
        (1, 0 | 1) if high => (9, 1 << 13),
        (1, 0 | 1) => (8, 1 << 14),
        (_, 0 | 1) => (12, 1 << 10),
        _ => (12, 1 << 1),
    }
}

fn centre(slot: usize) -> i32 {
    if slot == 2 || slot == 5 { 65536 } else { 0 }
}

/// The codes of every ordinal about a prior, counted by their length.
fn counted(kind: u8, high: bool, slot: usize, prior: i32) -> Vec<u32> {
    let (abs_bits, step) = row(kind, high, slot);
    let mut counts = vec![0; 2 * abs_bits as usize - SHORTEST];
    for ordinal in -(1 << abs_bits)..=1 << abs_bits {
        let code = oracle::coefficient(kind, high, slot, prior, ordinal * step + centre(slot));
        counts[code.len() - SHORTEST] += 1;
    }
    counts
}

/// The ends and the middle of a prior's range, off the grid beside it, and one anywhere.
fn priors(random: &mut Lcg, slot: usize) -> [i32; 7] {
    let reach = if slot < 2 { 4_194_304 } else { 8192 };
    let anywhere = (random.word() % (2 * reach as u32 + 1)) as i32 - reach;
    [-reach, reach, 0, 1, -1, reach / 2 + 1, anywhere].map(|distance| centre(slot) + distance)
}

fn push(list: &mut List, question: [u32; 3], prior: i32, refusal: u32, counts: &[u32]) {
    question.iter().for_each(|&word| list.push(word));
    list.push_signed(prior);
    list.push(refusal);
    list.push(counts.len() as u32);
    (0..MOST_LENGTHS).for_each(|j| list.push(counts.get(j).copied().unwrap_or(0)));
}

fn main() -> io::Result<()> {
    let path = env::args().nth(1).expect("the argument is the file to write");
    let mut random = Lcg(12);
    let mut cases = Vec::new();
    for (kind, slots) in [(1u8, 2), (2, 4), (3, 6)] {
        for high in [false, true] {
            for slot in 0..slots {
                for prior in priors(&mut random, slot) {
                    cases.push((kind, high, slot, prior));
                }
            }
        }
    }
    let mut list = List::default();
    list.push((cases.len() + REFUSED.len()) as u32);
    for (kind, high, slot, prior) in cases {
        push(&mut list, [kind.into(), high.into(), slot as u32], prior, 0, &counted(kind, high, slot, prior));
    }
    for (kind, flag, slot, prior, refusal) in REFUSED {
        push(&mut list, [kind, flag, slot], prior, refusal, &[]);
    }
    list.write(path)
}
