//! The list for `worked_practice`: a count, then for each belt seed, sides, motion and the room of both buffers, refusal,
//! how many pels each plane has, and the sums of input and reference. The argument is the file to write.

use oracle::list::{Lcg, List, sum};
use oracle::practice::{planes, refusal};
use std::{env, io};

/// Seed, width, height, dy, dx, and what the buffers have more than the planes need.
type Belt = (u32, usize, usize, i32, i32, i32, i32);

/// Worked values; sides of 0, 1 and 1,024; motions at their limits and beyond; buffers too short; rows in their order.
const BELTS: [Belt; 40] = [
    (1, 2, 2, 1, -1, 0, 0),
    (u32::MAX, 4, 2, -1, 1, 0, 0),
    (1, 64, 64, 3, -5, 0, 0),
    (1, 64, 64, 3, -5, 7, 64),
    (0, 1, 1, 0, 0, 0, 0),
    (0, 1, 1, 24, 24, 1, 1),
    (0, 1, 1, 0, -25, 0, 0),
    (7, 0, 0, 0, 0, 0, 0),
    (7, 0, 0, 24, -24, 5, 5),
    (7, 0, 1024, 3, 3, 0, 0),
    (7, 1024, 0, 3, 3, 9, 0),
    (7, 0, 1024, 25, 0, 0, 0),
    (7, 0, 1025, 0, 0, 0, 0),
    (7, 1025, 0, 0, 0, 0, 0),
    (8, 1, 1024, 24, 0, 0, 0),
    (8, 1, 1024, -24, -24, 3, 3),
    (8, 1024, 1, 0, 24, 0, 0),
    (8, 1024, 1, 24, -24, 3, 3),
    (9, 1024, 1024, 24, -24, 64, 64),
    (9, 1024, 1024, -24, 24, 0, 0),
    (9, 1025, 1, 0, 0, 0, 0),
    (9, 1, 1025, 0, 0, 0, 0),
    (9, 1025, 1, 0, -25, -1, -1),
    (9, 1, 1025, 25, 0, -1, -1),
    (10, 30, 20, 24, 0, 0, 0),
    (10, 30, 20, -24, 0, 0, 0),
    (10, 30, 20, 0, 24, 0, 0),
    (10, 30, 20, 0, -24, 0, 0),
    (10, 30, 20, 25, 0, 0, 0),
    (10, 30, 20, -25, 0, 0, 0),
    (10, 30, 20, 0, 25, 0, 0),
    (10, 30, 20, 0, -25, 0, 0),
    (10, 30, 20, i32::MIN, 0, 0, 0),
    (10, 30, 20, 0, i32::MAX, 0, 0),
    (11, 5, 5, 25, 0, -15, -15),
    (11, 5, 5, 24, 0, -15, -15),
    (11, 5, 5, 24, 0, -1, 0),
    (11, 5, 5, 24, 0, 0, -1),
    (11, 5, 5, 24, 0, 20, -25),
    (11, 5, 5, 24, 0, 0, 0),
];

fn push(list: &mut List, (seed, width, height, dy, dx, input_more, reference_more): Belt) {
    let room = |more: i32| (width * height).saturating_add_signed(more as isize);
    let (input_room, reference_room) = (room(input_more), room(reference_more));
    list.push(seed);
    list.push(width as u32);
    list.push(height as u32);
    list.push_signed(dy);
    list.push_signed(dx);
    list.push(input_room as u32);
    list.push(reference_room as u32);
    let row = refusal(width, height, dy, dx, input_room, reference_room);
    let (input, reference) = if row == 0 { planes(seed, width, height, dy, dx) } else { Default::default() };
    list.push(row);
    list.push(input.len() as u32);
    list.push(sum(&input));
    list.push(sum(&reference));
}

fn main() -> io::Result<()> {
    let path = env::args().nth(1).expect("the argument is the file to write");
    let random_belts = 60;
    let mut list = List::default();
    list.push(BELTS.len() as u32 + random_belts);
    BELTS.into_iter().for_each(|belt| push(&mut list, belt));
    let mut random = Lcg(11);
    for _ in 0..random_belts {
        let seed = random.word();
        let mut side = || usize::from(random.below(90));
        let (width, height) = (side(), side());
        let mut component = || i32::from(random.below(53)) - 26;
        let (dy, dx) = (component(), component());
        let mut more = || i32::from(random.below(12)) - 2;
        let (input_more, reference_more) = (more(), more());
        push(&mut list, (seed, width, height, dy, dx, input_more, reference_more));
    }
    list.write(path)
}
