//! The list for `worked_frame`: key frames. A count, then for each: flag, first type, how many types are lent; slot 0 of
//! the first model, how many numbers are lent; the number that the prior is full of, how many are lent; start, bytes
//! lent, position to read at; then the row that refuses the writing and the one that refuses the reading, 0 for none.
//! The rows are those of docs/RULES.md, 'Key frames'; what is read is the Rust's. The argument is the file to write.

use oracle::list::{Lcg, List};
use oracle::{IDENTITY, read_key_frame};
use std::{env, io};

const SEED: u32 = 9;
const CASES: u32 = 2000;

fn main() -> io::Result<()> {
    let path = env::args().nth(1).expect("the argument is the file to write");
    assert_eq!(read_key_frame(&[], 99), ([0; 7], [IDENTITY; 7], 0), "seven identities and no bit");
    let mut lcg = Lcg(SEED);
    let mut list = List::default();
    list.push(CASES);
    for _ in 0..CASES {
        push_case(&mut list, &mut lcg);
    }
    list.write(path)
}

/// One of a list of numbers, its first one half of the time.
fn pick(lcg: &mut Lcg, numbers: &[u32]) -> u32 {
    if lcg.below(2) == 0 { numbers[0] } else { numbers[usize::from(lcg.below(numbers.len() as u16))] }
}

fn push_case(list: &mut List, lcg: &mut Lcg) {
    let flag = pick(lcg, &[1, 0, 2, 255]);
    let first_type = pick(lcg, &[0, 0, 1, 2, 3, 4, 255]);
    let types = pick(lcg, &[7, 7, 7, 6, 8, 0]);
    let number = pick(lcg, &[0, 0, 8192, 1, u32::MAX]);
    let numbers = pick(lcg, &[42, 42, 42, 41, 43, 0]);
    let prior = pick(lcg, &[0, 65_536, 99_999_999, u32::MAX]);
    let places = pick(lcg, &[42, 0, 3, 41, 43]);
    let start = pick(lcg, &[0, 1, 3, 7, 8, 9, u32::MAX]);
    let room = pick(lcg, &[0, 1, 2, 8]);
    let at = pick(lcg, &[0, 1, 99, u32::MAX]);
    let refusal = match () {
        () if types != 7 || numbers != 42 => 2,
        () if first_type > 3 || flag > 1 => 4,
        () if start > 7 => 14,
        () if first_type != 0 || number != 0 => 7,
        () => 0,
    };
    let read_refusal = if flag > 1 { 4 } else { 0 };
    for word in [flag, first_type, types, number, numbers, prior, places, start, room, at, refusal, read_refusal] {
        list.push(word);
    }
}
