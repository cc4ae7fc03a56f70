//! The list for `worked_header`: a count, then for each case what it holds in one word (two bits for
//! each type from reference 1 on, the flag, whether a prior follows), the number of bytes, the bit that
//! it begins at, the bits, the bytes, the prior unless that is the identity, the models. The argument is
//! the file to write.

use oracle::header_files::{Header, headers};
use oracle::list::{Lcg, List};
use oracle::{IDENTITY, Models, read_header, write_header};
use std::{env, io};

const SEED: u32 = 1;
/// Headers with types at random, a quarter for each `Aim`.
const RANDOM_HEADERS: usize = 2200;
/// The most bits and bytes that stand before and behind a header that isn't alone in its bytes.
const BITS_BEFORE: u16 = 40;
const BYTES_BEHIND: u16 = 3;
/// How far from its prior an ordinal near it is.
const NEAR: i32 = 9;

/// Where a header's numbers lie.
#[derive(Clone, Copy)]
enum Aim {
    /// At each rung of the ladder, from priors of each kind.
    Rungs,
    Near,
    /// At both ends.
    Ends,
    Anywhere,
}

const AIMS: [Aim; 4] = [Aim::Rungs, Aim::Near, Aim::Ends, Aim::Anywhere];

fn main() -> io::Result<()> {
    let path = env::args().nth(1).expect("the argument is the file to write");
    let made = Maker::default().headers();
    let real = headers("real_headers.jsonl");
    let libaom = headers("libaom_writer.jsonl");
    let mut list = List::default();
    list.push((made.len() + real.len() + libaom.len()) as u32);
    for header in made.iter().chain(&libaom).chain(&real) {
        push(&mut list, header);
    }
    list.write(path)
}

fn push(list: &mut List, header: &Header) {
    let types: u32 = (0..7).map(|i| u32::from(header.types[i]) << (2 * i)).sum();
    let prior_given = header.prior != [IDENTITY; 7];
    list.push(types | u32::from(header.high) << 14 | u32::from(prior_given) << 15);
    list.push(header.bytes.len() as u32);
    list.push(header.start as u32);
    list.push(header.bits as u32);
    for part in header.bytes.chunks(4) {
        list.push((0..4).fold(0, |word, i| word << 8 | u32::from(*part.get(i).unwrap_or(&0))));
    }
    let mut push_models = |models: &Models| models.iter().flatten().for_each(|&value| list.push_signed(value));
    if prior_given {
        push_models(&header.prior);
    }
    push_models(&header.params);
}

/// absBits and precBits.
fn bits(kind: u8, high: bool, slot: usize) -> (u32, u32) {
    match (kind, high, slot) {
        (1, true, 0 | 1) => (9, 3),
        (1, false, 0 | 1) => (8, 2),
        (_, _, 0 | 1) => (12, 6),
        _ => (12, 15),
    }
}

/// The ends of a prior's range, which are those of an AFFINE number too.
fn prior_range(slot: usize) -> (i32, i32) {
    match slot {
        0 | 1 => (-4_194_304, 4_194_304),
        2 | 5 => (57_344, 73_728),
        _ => (-8_192, 8_192),
    }
}

fn carries(kind: u8, slot: usize) -> bool {
    match kind {
        0 => false,
        1 => slot < 2,
        2 => slot < 4,
        _ => true,
    }
}

/// The numbers at which the climb ends or goes on, with both neighbours, and the last two of S symbols.
fn rungs(symbols: i32) -> Vec<i32> {
    let powers = (3..14).map(|power| 1 << power).flat_map(|at| [at - 1, at, at + 1]);
    [0, 1, 2].into_iter().chain(powers).chain([symbols - 2, symbols - 1]).filter(|&k| k < symbols).collect()
}

/// The symbol that k stands for where the prior is symbol p of S.
fn symbol(k: i32, p: i32, symbols: i32) -> i32 {
    let above = 2 * p > symbols;
    let q = if above { symbols - 1 - p } else { p };
    let t = match k {
        _ if k > 2 * q => k,
        _ if k % 2 == 1 => q - (k + 1) / 2,
        _ => q + k / 2,
    };
    if above { symbols - 1 - t } else { t }
}

struct Maker {
    lcg: Lcg,
    /// How many numbers there were of each aim, type, flag and slot.
    turns: [[[[usize; 6]; 2]; 4]; 4],
}

impl Default for Maker {
    fn default() -> Self {
        Self { lcg: Lcg(SEED), turns: Default::default() }
    }
}

impl Maker {
    fn headers(&mut self) -> Vec<Header> {
        let mut headers = Vec::new();
        for high in [false, true] {
            headers.push(self.longest(high, |(low, high)| (low, high)));
            headers.push(self.longest(high, |(low, high)| (high, low)));
        }
        for aim in AIMS {
            for high in [false, true] {
                for kind in 0..=3 {
                    headers.push(self.header([kind; 7], high, aim, false));
                    for reference in (0..7).filter(|_| kind != 0) {
                        let mut types = [0; 7];
                        types[reference] = kind;
                        headers.push(self.header(types, high, aim, reference % 2 == 1));
                    }
                }
            }
        }
        for i in 0..RANDOM_HEADERS {
            let types = std::array::from_fn(|_| self.lcg.below(4) as u8);
            let high = self.lcg.below(2) == 1;
            let identity_prior = i % 16 < 4;
            headers.push(self.header(types, high, AIMS[i % 4], identity_prior));
        }
        headers
    }

    fn header(&mut self, types: [u8; 7], high: bool, aim: Aim, identity_prior: bool) -> Header {
        let mut prior = [IDENTITY; 7];
        let mut params = [IDENTITY; 7];
        for (reference, &kind) in types.iter().enumerate() {
            for slot in 0..6 {
                let turn = self.turn(aim, kind, high, slot);
                if !identity_prior {
                    prior[reference][slot] = self.prior(slot, turn);
                }
                if carries(kind, slot) {
                    params[reference][slot] = self.number(kind, high, slot, prior[reference][slot], aim, turn);
                }
            }
            if kind == 2 {
                params[reference][4] = -params[reference][3];
                params[reference][5] = params[reference][2];
            }
        }
        self.written(types, params, high, prior)
    }

    /// Every prior at one end of its range and every number at the other.
    fn longest(&mut self, high: bool, ends: fn((i32, i32)) -> (i32, i32)) -> Header {
        let prior = [std::array::from_fn(|slot| ends(prior_range(slot)).0); 7];
        let params = [std::array::from_fn(|slot| ends(prior_range(slot)).1); 7];
        self.written([3; 7], params, high, prior)
    }

    /// A header of the oracle, alone in its bytes or with others around it.
    fn written(&mut self, types: [u8; 7], params: Models, high: bool, prior: Models) -> Header {
        let (written, bits) = write_header(&types, &params, high, &prior, 0);
        let (bytes, start) = self.surrounded(written, bits);
        assert_eq!(read_header(&bytes, start, high, &prior), Some((types, params, bits)));
        Header { bytes, start, high, prior, types, params, bits }
    }

    fn turn(&mut self, aim: Aim, kind: u8, high: bool, slot: usize) -> usize {
        let turn = &mut self.turns[aim as usize][usize::from(kind)][usize::from(high)][slot];
        *turn += 1;
        *turn
    }

    /// Each end in turn, the middle, and anywhere in range, on the grid or off it.
    fn prior(&mut self, slot: usize, turn: usize) -> i32 {
        let (low, high) = prior_range(slot);
        match turn % 5 {
            0 => low,
            1 => high,
            2 => low.midpoint(high),
            _ => low + (self.lcg.word() % (high - low + 1) as u32) as i32,
        }
    }

    /// A codable number.
    fn number(&mut self, kind: u8, high: bool, slot: usize, prior: i32, aim: Aim, turn: usize) -> i32 {
        let (abs_bits, prec_bits) = bits(kind, high, slot);
        let centre = if slot % 3 == 2 { 65_536 } else { 0 };
        let most = 1 << abs_bits;
        let symbols = 2 * most + 1;
        let from = ((prior - centre) >> (16 - prec_bits)) + most;
        let to = match aim {
            Aim::Rungs => {
                let rungs = rungs(symbols);
                symbol(rungs[turn / 5 % rungs.len()], from, symbols)
            }
            Aim::Near => (from - NEAR + i32::from(self.lcg.below(2 * NEAR as u16 + 1))).clamp(0, symbols - 1),
            Aim::Ends => i32::from(self.lcg.below(2)) * (symbols - 1),
            Aim::Anywhere => i32::from(self.lcg.below(symbols as u16)),
        };
        centre + (to - most) * (1 << (16 - prec_bits))
    }

    /// Every other time bits at random stand before and behind the header.
    fn surrounded(&mut self, written: Vec<u8>, bits: usize) -> (Vec<u8>, usize) {
        if self.lcg.below(2) == 0 {
            return (written, 0);
        }
        let start = usize::from(self.lcg.below(BITS_BEFORE + 1));
        let length = (start + bits).div_ceil(8) + usize::from(self.lcg.below(BYTES_BEHIND + 1));
        let mut bytes: Vec<u8> = (0..length).map(|_| self.lcg.below(256) as u8).collect();
        for i in 0..bits {
            let bit = written[i / 8] >> (7 - i % 8) & 1;
            let at = start + i;
            let mask = 0x80 >> (at % 8);
            bytes[at / 8] = if bit == 1 { bytes[at / 8] | mask } else { bytes[at / 8] & !mask };
        }
        (bytes, start)
    }
}
