//! The lists for `worked_job`: jobs, each answered by the composition of the Rust's own functions over the samples of the
//! named classes, and refusals, which go by the rows of docs/RULES.md. The arguments are the two files to write. Frame
//! pairs are remade from a seed; models, prior and answers are stored.
//!
//! A count, then for each case: seed, mask, width, height, kind, four numbers of the picture, of kind 3 the pels of its
//! reference, of kind 4 also those of its input; frame number, type, reference, flag, trim, elect, set, start; how many
//! pels of input and reference, classes, other types, numbers of theirs and of the prior go in, and the last four of
//! these lists; how much of half planes, words, blocks and header is lent. Then the report (refusal, samples, seven
//! types, 42 numbers, score in two words, bits), the blocks' length in words and their words, the header's length in
//! bytes and its bytes among `UNTOUCHED` bits, zeros up to a whole word; how many pels of the half planes are written, a
//! sum of each, how many words, and the words.

use oracle::blocks::{self, TWO};
use oracle::list::{self, Lcg, List};
use oracle::{Elected, IDENTITY, Models, TOO_FEW};
use std::{env, io};

const SEED: u32 = 7;
/// The byte that a replay's header buffer is full of.
const UNTOUCHED: u8 = 165;
/// The replay's buffers.
const HALF_PELS: usize = 9250;
const WORDS: usize = 150;
const BLOCK_BYTES: usize = 1100;
const HEADER_BYTES: usize = 140;

/// Classes 0 to 4; class c is bit c.
const ALL: u8 = 0b11111;

/// How the input plane comes from the reference: 0 on its own, 1 mapped, 2 mapped with the two planes exchanged, 3 mapped
/// from a bowl, 4 a bowl seen from another place.
#[derive(Clone)]
struct Picture {
    seed: u32,
    mask: u16,
    width: usize,
    height: usize,
    kind: u32,
    /// Row r, column c is the reference's r * (64 + zoom) / 64 + shift, and so for c; clamped.
    zoom: [u32; 2],
    shift: [u32; 2],
    /// The place in a bowl that row r, column c sees; outside, the nearest.
    place: fn(i32, i32) -> (i32, i32),
}

impl Picture {
    /// Input and reference.
    fn planes(&self) -> (Vec<u16>, Vec<u16>) {
        let mut lcg = Lcg(self.seed);
        let first = if self.kind >= 3 { self.bowl() } else { lcg.plane(self.width, self.height, self.mask) };
        if self.kind == 4 {
            return (self.seen(), first);
        }
        if self.kind == 0 {
            let second = lcg.plane(self.width, self.height, self.mask);
            return (first, second);
        }
        let at = |i: usize, axis: usize, side: usize| {
            (i * (64 + self.zoom[axis] as usize) / 64 + self.shift[axis] as usize).min(side - 1)
        };
        let mapped = (0..self.height)
            .flat_map(|r| (0..self.width).map(move |c| (r, c)))
            .map(|(r, c)| first[at(r, 0, self.height) * self.width + at(c, 1, self.width)])
            .collect();
        if self.kind == 2 { (first, mapped) } else { (mapped, first) }
    }

    fn bowl(&self) -> Vec<u16> {
        list::bowl(self.width, self.height, |r, c| (r, c))
    }

    fn seen(&self) -> Vec<u16> {
        list::bowl(self.width, self.height, self.place)
    }
}

/// A job.
#[derive(Clone)]
struct Case {
    picture: Picture,
    frame: u16,
    kind: u8,
    reference: u8,
    flag: u8,
    trim: u8,
    elect: u8,
    set: u8,
    start: usize,
    input_pels: usize,
    ref_pels: usize,
    classes: Vec<u8>,
    types: Vec<u8>,
    params: Vec<i32>,
    prior: Vec<i32>,
    input_half_room: usize,
    ref_half_room: usize,
    word_room: usize,
    block_room: usize,
    header_room: usize,
}

impl Case {
    /// All other models and the prior at the identity, the classes in turn.
    fn plain(picture: &Picture, kind: u8, trim: u8) -> Self {
        let pels = picture.width * picture.height;
        let samples = oracle::sample_count(picture.width, picture.height);
        Self {
            picture: picture.clone(),
            frame: 5,
            kind,
            reference: 7,
            flag: 1,
            trim,
            elect: 0,
            set: ALL,
            start: 5,
            input_pels: pels,
            ref_pels: pels,
            classes: (0..samples).map(|i| (i % 5) as u8).collect(),
            types: vec![0; 6],
            params: [IDENTITY; 6].concat(),
            prior: [IDENTITY; 7].concat(),
            input_half_room: HALF_PELS,
            ref_half_room: HALF_PELS,
            word_room: WORDS,
            block_room: BLOCK_BYTES,
            header_room: HEADER_BYTES,
        }
    }

    fn random(picture: &Picture, kind: u8, trim: u8, lcg: &mut Lcg) -> Self {
        let frame = lcg.step().max(1);
        let reference = 1 + lcg.below(7) as u8;
        let high = lcg.below(2) == 1;
        let start = usize::from(lcg.below(8));
        let (types, params) = lcg.models(high);
        let others = (0..7).filter(|&i| i != usize::from(reference) - 1);
        Self {
            frame,
            reference,
            flag: u8::from(high),
            start,
            types: others.clone().map(|i| types[i]).collect(),
            params: others.flat_map(|i| params[i]).collect(),
            prior: lcg.prior().concat(),
            ..Self::plain(picture, kind, trim)
        }
    }

    /// It elects; its codes of type and trim stay, and aren't looked at.
    fn electing(self) -> Self {
        Self { elect: 1, ..self }
    }

    fn naming(self, set: u8) -> Self {
        Self { set, ..self }
    }

    /// Classes drawn at random.
    fn sorted(self, lcg: &mut Lcg) -> Self {
        Self { classes: self.classes.iter().map(|_| lcg.below(5) as u8).collect(), ..self }
    }
}

fn main() -> io::Result<()> {
    let path = |n| env::args().nth(n).expect("the arguments are the files to write");
    let mut lcg = Lcg(SEED);
    let cases: Vec<Case> = jobs(&mut lcg);
    let mut list = List::default();
    list.push(cases.len() as u32);
    cases.iter().for_each(|case| push_case(&mut list, case, 0));
    list.write(path(1))?;

    let refused = [refusals(), pairs()].concat();
    let mut list = List::default();
    list.push(refused.len() as u32);
    refused.iter().for_each(|(row, case)| push_case(&mut list, case, *row));
    list.write(path(2))
}

fn jobs(lcg: &mut Lcg) -> Vec<Case> {
    let pictures = pictures(lcg);
    let bowl = bowl();
    let seen = seen();
    let mut cases = Vec::new();
    for trim in [0, 1] {
        for picture in &pictures {
            cases.extend((1..=3).map(|kind| Case::random(picture, kind, trim, lcg)));
        }
        cases.extend((1..=3).map(|kind| Case::plain(&bowl, kind, trim)));
    }
    for (i, picture) in pictures.iter().enumerate() {
        let codes = [(0, 0), (1, 1), (4, 2), (255, 255)][i % 4];
        cases.push(Case::random(picture, codes.0, codes.1, lcg).electing());
    }
    cases.extend(seen.iter().chain([&bowl]).map(|picture| Case::plain(picture, 0, 2).electing()));

    for (i, picture) in pictures.iter().enumerate() {
        let case = Case::random(picture, 1 + (i % 3) as u8, (i / 3 % 2) as u8, lcg).sorted(lcg);
        let case = case.naming(1 + lcg.below(u16::from(ALL)) as u8);
        cases.push(if i % 4 == 3 { case.electing() } else { case });
    }
    let [shift, _, slant] = &seen;
    cases.push(Case::plain(&bowl, 0, 0).electing().naming(0b10011));
    cases.push(Case::plain(slant, 0, 0).electing().naming(0b10011));
    cases.push(Case::plain(shift, 0, 0).electing().naming(0b00100));
    cases.push(Case::plain(shift, 1, 1).naming(0b00100));
    for case in [1, 2, 3]
        .map(|kind| Case::plain(&square(), kind, 0))
        .into_iter()
        .chain([Case::plain(&square(), 0, 0).electing()])
    {
        cases.push(Case { classes: case.classes.iter().map(|class| class % 4).collect(), ..case }.naming(0b10000));
    }
    cases
}

/// 16 samples of noise.
fn square() -> Picture {
    Picture { mask: 0xffff, kind: 0, ..bowl() }
}

/// The sizes about no sample, one, one row or column, and more than a block; then sides of every remainder.
fn pictures(lcg: &mut Lcg) -> Vec<Picture> {
    let mut sizes = vec![(0, 0), (15, 16), (16, 15), (16, 16), (33, 16), (16, 80), (80, 16), (192, 96), (192, 192)];
    sizes.extend((0..39).map(|i| (16 + usize::from(lcg.below(65)), 16 + (i * 5) % 65)));
    sizes
        .into_iter()
        .enumerate()
        .map(|(i, (width, height))| Picture {
            seed: lcg.word(),
            mask: [0xffff, 0x03ff, 0x00ff, 0x0003, 0][i % 5],
            width,
            height,
            kind: (i % 3) as u32,
            zoom: [u32::from(lcg.below(5)), u32::from(lcg.below(5))],
            shift: [u32::from(lcg.below(13)), u32::from(lcg.below(13))],
            place: |r, c| (r, c),
        })
        .collect()
}

/// A bowl that is drawn together by a sixteenth.
fn bowl() -> Picture {
    Picture { seed: 0, mask: 0, width: 64, height: 64, kind: 3, zoom: [4; 2], shift: [0; 2], place: |r, c| (r, c) }
}

/// A bowl moved, turned and slid.
fn seen() -> [Picture; 3] {
    let places: [fn(i32, i32) -> (i32, i32); 3] =
        [|r, c| (r + 2, c - 3), |r, c| (r + c / 16 - 2, c - r / 16 + 1), |r, c| (r, c + r / 8)];
    places.map(|place| Picture { kind: 4, place, ..bowl() })
}

type Change = Box<dyn Fn(Case) -> Case>;

/// The row that each change of a job of one flat block brings about, in the order of the table.
fn causes(elects: bool) -> Vec<(u32, Change)> {
    let mut causes: Vec<(u32, Change)> = vec![
        (1, Box::new(|c| Case { picture: Picture { width: 1025, ..c.picture }, ..c })),
        (2, Box::new(|c| Case { input_pels: 255, ..c })),
        (2, Box::new(|c| Case { ref_pels: 257, ..c })),
        (2, Box::new(|c| Case { classes: Vec::new(), ..c })),
        (2, Box::new(|c| Case { types: vec![0; 5], ..c })),
        (2, Box::new(|c| Case { params: c.params[1..].to_vec(), ..c })),
        (2, Box::new(|c| Case { prior: c.prior[1..].to_vec(), ..c })),
        (4, Box::new(|c| Case { classes: vec![5; c.classes.len()], ..c })),
        (4, Box::new(|c| Case { types: vec![4; c.types.len()], ..c })),
        (4, Box::new(|c| Case { flag: 2, ..c })),
        (4, Box::new(|c| Case { elect: 2, ..c })),
        (4, Box::new(|c| Case { set: 0b100000, ..c })),
    ];
    if !elects {
        causes.push((4, Box::new(|c| Case { kind: 0, ..c })));
        causes.push((4, Box::new(|c| Case { kind: 4, ..c })));
        causes.push((4, Box::new(|c| Case { trim: 2, ..c })));
    }
    causes.push((19, Box::new(|c| Case { set: 0, ..c })));
    causes.push((5, Box::new(|c| Case { reference: 0, ..c })));
    causes.push((5, Box::new(|c| Case { reference: 8, ..c })));
    causes.push((14, Box::new(|c| Case { start: 8, ..c })));
    causes.push((7, Box::new(|c| Case { params: changed(c.params, 65537), ..c })));
    causes.push((8, Box::new(|c| Case { prior: changed(c.prior, 73729), ..c })));
    causes.push((3, Box::new(|c| Case { input_half_room: 63, ..c })));
    causes.push((3, Box::new(|c| Case { ref_half_room: 63, ..c })));
    causes.push((3, Box::new(|c| Case { word_room: 0, ..c })));
    causes.push((3, Box::new(|c| Case { block_room: 511, ..c })));
    causes.push((3, Box::new(|c| Case { header_room: 124, ..c })));
    if !elects {
        causes.push((TOO_FEW, Box::new(|c| Case { trim: 1, ..c })));
    }
    causes.push((17, Box::new(|c| Case { frame: 0, ..c })));
    if !elects {
        causes.push((0, Box::new(|c| Case { kind: 2, ..c })));
    }
    causes
}

/// The numbers with another on the diagonal of the last model.
fn changed(mut numbers: Vec<i32>, number: i32) -> Vec<i32> {
    let last = numbers.len() - 1;
    numbers[last] = number;
    numbers
}

/// Every fault, also with another of the same row or a later one, of a job that asks for its type and of one that
/// elects, which takes any code of type and trim.
fn refusals() -> Vec<(u32, Case)> {
    let flat = Picture { mask: 0, width: 16, height: 16, kind: 0, ..bowl() };
    let mut cases = Vec::new();
    for case in [Case::plain(&flat, 1, 0), Case::plain(&flat, 0, 2).electing()] {
        let causes = causes(case.elect == 1);
        for (i, (row, change)) in causes.iter().enumerate() {
            cases.extend(causes[i..].iter().map(|(_, second)| (*row, change(second(case.clone())))));
        }
    }
    cases
}

/// Two faults of a job of 16 samples, of which three are named.
fn pairs() -> Vec<(u32, Case)> {
    let three = |kind| Case::plain(&square(), kind, 1).naming(0b00100);
    vec![
        (3, Case { header_room: 124, ..three(2) }),
        (TOO_FEW, Case { frame: 0, ..three(2) }),
        (TOO_FEW, Case { frame: 0, ..three(1) }),
        (19, Case { reference: 0, ..three(2).naming(0) }),
        (2, Case { classes: Vec::new(), ..three(2).naming(0b100000) }),
    ]
}

/// A case and its answer: the number of a row that it meets before its search, or what the composition gives.
fn push_case(list: &mut List, case: &Case, row: u32) {
    push_asked(list, case);
    let (words, own) = match row {
        0 => answered(case),
        _ => (Vec::new(), Err(row)),
    };
    match own {
        Ok(own) => push_done(list, case, &words, own),
        Err(refusal) => {
            list.push(refusal);
            (0..1 + 7 + 42 + 2 + 1 + 1 + 1).for_each(|_| list.push(0));
        }
    }
    let Picture { width, height, .. } = case.picture;
    let half = |plane: Vec<u16>| if words.is_empty() { Vec::new() } else { oracle::half_plane(&plane, width, height) };
    let (input, plane) = case.picture.planes();
    let halves = [input, plane].map(half);
    list.push(halves[0].len() as u32);
    halves.iter().for_each(|half| list.push(oracle::list::sum(half)));
    list.push(words.len() as u32);
    words.iter().for_each(|&word| list.push(word));
}

fn push_asked(list: &mut List, case: &Case) {
    let picture = &case.picture;
    for word in [picture.seed, u32::from(picture.mask), picture.width as u32, picture.height as u32, picture.kind] {
        list.push(word);
    }
    picture.zoom.iter().chain(&picture.shift).for_each(|&n| list.push(n));
    let (input, plane) = picture.planes();
    if picture.kind > 2 {
        plane.iter().for_each(|&pel| list.push(u32::from(pel)));
    }
    if picture.kind == 4 {
        input.iter().for_each(|&pel| list.push(u32::from(pel)));
    }
    list.push(u32::from(case.frame));
    for code in [case.kind, case.reference, case.flag, case.trim, case.elect, case.set] {
        list.push(u32::from(code));
    }
    list.push(case.start as u32);
    let lists = [case.classes.len(), case.types.len(), case.params.len(), case.prior.len()];
    for count in [case.input_pels, case.ref_pels].into_iter().chain(lists) {
        list.push(count as u32);
    }
    case.classes.iter().chain(&case.types).for_each(|&byte| list.push(u32::from(byte)));
    case.params.iter().chain(&case.prior).for_each(|&number| list.push_signed(number));
    for room in [case.input_half_room, case.ref_half_room, case.word_room, case.block_room, case.header_room] {
        list.push(room as u32);
    }
}

/// The words of the search, none where the job is refused before it, and the model of the named ones or what refuses it.
fn answered(case: &Case) -> (Vec<u32>, Result<Elected, u32>) {
    let Picture { width, height, .. } = case.picture;
    let (input, plane) = case.picture.planes();
    let words = match oracle::sample_count(width, height) {
        0 => Vec::new(),
        _ => oracle::sample_words(&input, &plane, width, height),
    };
    let named = words.iter().zip(&case.classes).filter(|&(_, class)| case.set >> class & 1 == 1);
    let samples: Vec<[f64; 4]> = named.map(|(&word, _)| oracle::sample_of(word)).collect();
    let (high, trims) = (case.flag == 1, case.trim == 1);
    if case.elect == 1 {
        return (words, oracle::elect_or_row(high, &samples));
    }
    if trims && samples.len() < oracle::least_samples(case.kind) {
        return (Vec::new(), Err(TOO_FEW));
    }
    (words, oracle::own_model(case.kind, high, trims, &samples))
}

/// The report of an accepted job, its blocks and its header.
fn push_done(list: &mut List, case: &Case, words: &[u32], own: Elected) {
    let place = usize::from(case.reference) - 1;
    let mut types = case.types.clone();
    types.insert(place, own.kind);
    let mut params = case.params.clone();
    params.splice(6 * place..6 * place, own.params);
    let seven = |numbers: &[i32]| -> Models { std::array::from_fn(|r| std::array::from_fn(|i| numbers[6 * r + i])) };
    let codes = std::array::from_fn(|r| types[r]);
    let (mut header, bits) =
        oracle::write_header(&codes, &seven(&params), case.flag == 1, &seven(&case.prior), case.start);
    header[0] |= UNTOUCHED & !(0xff >> case.start);

    list.push(0);
    list.push(words.len() as u32);
    types.iter().for_each(|&t| list.push(u32::from(t)));
    params.iter().for_each(|&p| list.push_signed(p));
    list.push_float(own.score);
    list.push(bits as u32);
    let blocks = blocks::write(TWO, case.frame, &blocks::classed(words, &case.classes));
    list.push((blocks.len() / 4) as u32);
    list.push_bytes(&blocks);
    list.push(header.len() as u32);
    list.push_bytes(&header);
}
