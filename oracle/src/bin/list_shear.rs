//! The list for `worked_shear`: a count, then for each case type, how many numbers are handed on, six numbers,
//! refusal, verdict, alpha, beta, gamma and delta. The answers of libaom come first, then worked values and refusals.
//! The argument is the file to write.

use oracle::IDENTITY;
use oracle::list::List;
use oracle::shear_files::answers;
use std::{env, io};

/// Type, slots 2 to 5, verdict and the four numbers.
const WORKED: [(u8, [i32; 4], u32, [i32; 4]); 16] = [
    (3, [65536, 8192, -8192, 65536], 1, [0, 8192, -8192, 1024]),
    (2, [65536, 8192, -8192, 65536], 1, [0, 8192, -8192, 1024]),
    (3, [67584, 8192, 0, 65536], 0, [2048, 8192, 0, 0]),
    (3, [67520, 8192, 0, 65536], 1, [1984, 8192, 0, 0]),
    (3, [65536, 0, 8192, 73696], 0, [0, 0, 8192, 8192]),
    (3, [65536, 0, 8192, 73694], 1, [0, 0, 8192, 8128]),
    (3, [73728, 4682, -4682, 73728], 1, [8192, 4672, -4160, 8512]),
    (2, [73728, 4682, -4682, 73728], 1, [8192, 4672, -4160, 8512]),
    (2, [73728, 4704, -4704, 73728], 0, [8192, 4736, -4160, 8512]),
    (3, [65536, 32, 0, 65536], 1, [0, 64, 0, 0]),
    (3, [65536, -32, 0, 65536], 1, [0, -64, 0, 0]),
    (3, [65536, 30, 0, 65536], 1, [0, 0, 0, 0]),
    (3, [65536, -30, 0, 65536], 1, [0, 0, 0, 0]),
    (3, [58790, -1166, -6684, 73728], 1, [-6720, -1152, -7488, 8064]),
    (2, [65536, 0, 0, 65536], 1, [0, 0, 0, 0]),
    (3, [65536, 0, 0, 65536], 1, [0, 0, 0, 0]),
];

/// Type, six numbers, how many of them are handed on, row.
const REFUSED: [(u8, [i32; 6], usize, u32); 17] = [
    (1, [8192, -8192, 65536, 0, 0, 65536], 6, 7),
    (0, IDENTITY, 6, 7),
    (4, IDENTITY, 6, 4),
    (255, IDENTITY, 6, 4),
    (3, [0, 0, 65537, 0, 0, 65536], 6, 7),
    (2, [0, 0, 65536, 2, 2, 65536], 6, 7),
    (2, [0, 0, 65536, 2, -2, 65538], 6, 7),
    (3, [1, 0, 65536, 0, 0, 65536], 6, 7),
    (3, [0, 0, 65536, 8194, 0, 65536], 6, 7),
    (3, [0, 0, 57342, 0, 0, 65536], 6, 7),
    (3, [0, 0, 65536, 0, 0, 73730], 6, 7),
    (3, [i32::MIN, 0, 65536, 0, 0, 65536], 6, 7),
    (3, [0, 0, 0, 0, 0, 65536], 6, 7),
    (3, [0, 0, 65536, 0, 0, 0], 5, 2),
    (4, [0, 0, 65536, 0, 0, 0], 5, 2),
    (2, [0; 6], 0, 2),
    (4, [0, 0, 65537, 0, 0, 65536], 6, 4),
];

fn push(list: &mut List, head: [u32; 2], params: [i32; 6], answer: [u32; 2], numbers: [i32; 4]) {
    head.iter().for_each(|&word| list.push(word));
    params.iter().for_each(|&number| list.push_signed(number));
    answer.iter().for_each(|&word| list.push(word));
    numbers.iter().for_each(|&number| list.push_signed(number));
}

/// ROTZOOM where its pair holds, else AFFINE.
fn type_of(params: &[i32; 6]) -> u32 {
    if params[4] == -params[3] && params[5] == params[2] { 2 } else { 3 }
}

fn main() -> io::Result<()> {
    let path = env::args().nth(1).expect("the argument is the file to write");
    let answers = answers();
    let mut list = List::default();
    list.push((answers.len() + WORKED.len() + REFUSED.len()) as u32);
    for answer in &answers {
        push(&mut list, [type_of(&answer.params), 6], answer.params, [0, u32::from(answer.valid)], answer.numbers);
    }
    for (kind, [p2, p3, p4, p5], valid, numbers) in WORKED {
        push(&mut list, [u32::from(kind), 6], [0, 0, p2, p3, p4, p5], [0, valid], numbers);
    }
    for (kind, params, count, row) in REFUSED {
        push(&mut list, [u32::from(kind), count as u32], params, [row, 0], [0; 4]);
    }
    list.write(path)
}
