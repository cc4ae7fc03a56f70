//! The list for `worked_block`: a count, then for each case 18 words of what is asked, two for each sample where the seed
//! is 0, and 21 of what must come back. Words and classes are made from a seed or listed, one of them is changed, they are
//! stored in form 2 and carried over to form 1; in the blocks of one form the second is taken from the other form or a
//! byte is changed, the check mended or left, and they are read by both readers and converted each way. The argument is
//! the file to write.

use oracle::blocks::{self, BLOCK, Form, ONE, Sample, TWO};
use oracle::list::List;
use std::{env, io};

const BYTES: usize = 41 * BLOCK;
const SAMPLES: usize = blocks::MOST_SAMPLES;
const UNTOUCHED_BYTE: u8 = 0xa5;
const UNTOUCHED_WORD: u32 = 0xa5a5_a5a5;

#[derive(Clone, Copy)]
struct Case {
    frame: u16,
    samples: usize,
    /// 0 where the samples are listed.
    seed: u32,
    listed: Option<fn(u32) -> Sample>,
    /// Classes are below it.
    kinds: u32,
    changed_sample: usize,
    word_bits: u32,
    class_bits: u8,
    classes: usize,
    block_room: usize,
    /// The form whose blocks are changed and read.
    form: Form,
    /// Its second block is the other form's.
    mixed: bool,
    changed_byte: usize,
    byte_bits: u8,
    mended: bool,
    given: usize,
    word_room: usize,
    class_room: usize,
    other_room: usize,
}

fn main() -> io::Result<()> {
    let path = env::args().nth(1).expect("the argument is the file to write");
    let cases: Vec<Case> = [worked(), stored(), damaged(), filmed(), closed()].concat();
    let mut list = List::default();
    list.push(cases.len() as u32);
    for case in cases {
        answer(&mut list, case);
    }
    list.write(path)
}

fn plain(frame: u16, samples: usize, form: Form) -> Case {
    Case {
        frame,
        samples,
        seed: samples as u32 + 1,
        listed: None,
        kinds: 4,
        changed_sample: 0,
        word_bits: 0,
        class_bits: 0,
        classes: samples,
        block_room: BYTES,
        form,
        mixed: false,
        changed_byte: 0,
        byte_bits: 0,
        mended: false,
        given: BLOCK * form.blocks_of(samples),
        word_room: SAMPLES,
        class_room: SAMPLES,
        other_room: BYTES,
    }
}

fn listed(frame: u16, samples: usize, form: Form, sample: fn(u32) -> Sample) -> Case {
    Case { seed: 0, listed: Some(sample), ..plain(frame, samples, form) }
}

fn one<const CLASS: u8>(_: u32) -> Sample {
    (0x0006_fb7c, CLASS)
}

/// At rising places, with a motion of 0 to 4 eighths to the right.
fn rising(q: u32) -> Sample {
    (q / 64 << 26 | q % 64 << 20 | 223 << 11 | (223 + q % 5) << 2, (q % 4) as u8)
}

fn rising_film(q: u32) -> Sample {
    (rising(q).0, blocks::LAST_CLASS)
}

/// The worked values: one sample and 130, stored, damaged, converted and of mixed forms.
fn worked() -> Vec<Case> {
    let film = listed(5, 1, TWO, one::<4>);
    let mut cases = vec![film, listed(5, 1, TWO, one::<0>), listed(5, 1, ONE, one::<3>)];
    // a class bit in the word, class 5, form 3, filler
    for changed_byte in [11, 12, 2, 13] {
        cases.push(Case { changed_byte, byte_bits: 1, mended: true, ..film });
    }
    for (word_bits, class_bits, classes) in [(1, 0, 1), (0, 1, 1), (1, 1, 1), (1, 1, 0)] {
        cases.push(Case { word_bits, class_bits, classes, ..film });
    }
    cases.push(Case { block_room: BLOCK - 1, ..film });
    for form in [ONE, TWO] {
        let case = listed(7, 130, form, rising);
        cases.push(Case { other_room: 2 * BLOCK, ..case });
        cases.push(Case { other_room: 2 * BLOCK - 1, ..case });
        cases.push(Case { mixed: true, ..case });
        cases.push(Case { mixed: true, changed_byte: BLOCK + 508, byte_bits: 1, ..case });
    }
    let film = Case { other_room: 0, ..listed(7, 130, TWO, rising_film) };
    cases.push(film);
    cases.push(Case { changed_byte: BLOCK + 508, byte_bits: 1, ..film });
    cases.push(Case { given: BLOCK, ..film });
    cases
}

/// Sizes about the ends of blocks, exact, short and long buffers, and samples that can't be stored.
fn stored() -> Vec<Case> {
    let mut cases = Vec::new();
    for n in [0, 1, 2, 99, 100, 101, 124, 125, 126, 200, 201, 250, 251, 1000, 4095, 4096] {
        for form in [ONE, TWO] {
            let case = plain(n as u16 * 13 + 1, n, form);
            let (exact, other) = (case.given, BLOCK * if form == ONE { TWO } else { ONE }.blocks_of(n));
            cases.push(case);
            cases.push(Case {
                block_room: BLOCK * TWO.blocks_of(n),
                word_room: n,
                class_room: n,
                other_room: other,
                ..case
            });
            if n == 0 {
                cases.push(Case { classes: 1, ..case });
                continue;
            }
            cases.push(Case { given: (exact + 100).min(BYTES), ..case });
            cases.push(Case { word_room: n - 1, ..case });
            cases.push(Case { class_room: n - 1, ..case });
            cases.push(Case { word_room: 0, class_room: 0, other_room: other - 1, ..case });
            cases.push(Case { given: exact - 1, ..case });
            cases.push(Case { given: exact - BLOCK, ..case });
            cases.push(Case { given: 1, ..case });
        }
        if n > 0 {
            let case = plain(n as u16, n, TWO);
            cases.push(Case { block_room: case.given - 1, ..case });
            cases.push(Case { classes: n - 1, ..case });
            cases.push(Case { classes: n - 1, changed_sample: 0, class_bits: 8, ..case });
            for (changed_sample, word_bits, class_bits) in [
                (0, 0x000f_f800, 0),
                (n - 1, 0x0000_07fc, 0),
                (n - 1, 0xfff0_0000, 0),
                (n / 2, 0x0010_0000, 0),
                (0, 1, 0),
                (n - 1, 2, 0),
                (n - 1, 0, 8),
                (0, 3, 128),
            ] {
                cases.push(Case { changed_sample, word_bits, class_bits, ..case });
            }
        }
    }
    cases
}

/// Every leading byte, bytes of the first and the last sample, filler and check, of each block.
fn damaged() -> Vec<Case> {
    let mut cases = Vec::new();
    for (form, counts) in [(ONE, [1, 2, 125, 126, 251]), (TWO, [1, 2, 100, 101, 201])] {
        for n in counts {
            let case = plain(5, n, form);
            for ordinal in 0..form.blocks_of(n) {
                let count = form.capacity.min(n - form.capacity * ordinal);
                let last = 8 + form.size * (count - 1);
                let ends = [last, last + 3, last + form.size - 1, last + form.size, 507, 508, 511];
                for at in (0..13).chain(ends) {
                    for (byte_bits, mended) in [(1, false), (1, true), (128, true), (255, true)] {
                        cases.push(Case { changed_byte: BLOCK * ordinal + at, byte_bits, mended, ..case });
                    }
                }
            }
        }
    }
    cases
}

/// Frames with film: form 1 can't hold them, whatever else is short, unless a block is bad.
fn filmed() -> Vec<Case> {
    let mut cases = Vec::new();
    for n in [1, 5, 100, 130, 201, 4096] {
        let case = Case { kinds: 5, ..plain(7, n, TWO) };
        let last = case.given - 1;
        cases.push(case);
        cases.push(Case { other_room: 0, ..case });
        cases.push(Case { changed_byte: last, byte_bits: 1, other_room: 0, ..case });
        cases.push(Case { given: last, other_room: 0, ..case });
        cases.push(Case { word_room: n, class_room: n - 1, ..case });
    }
    cases
}

/// Frame 0, a closed shutter's: stored last of all rows, with or without words; read, where a block of frame 1 was made
/// one of frame 0, block by block.
fn closed() -> Vec<Case> {
    let mut cases = Vec::new();
    for n in [0, 1, 100, 130] {
        let case = plain(0, n, TWO);
        cases.push(case);
        cases.push(Case { classes: n + 1, ..case });
        if n > 0 {
            cases.push(Case { block_room: BLOCK * TWO.blocks_of(n) - 1, ..case });
            cases.push(Case { block_room: BLOCK * TWO.blocks_of(n), ..case });
            cases.push(Case { word_bits: 1, ..case });
            cases.push(Case { class_bits: 8, ..case });
        }
    }
    for (form, counts) in [(ONE, [1, 125, 126, 251]), (TWO, [1, 100, 101, 201])] {
        for n in counts {
            for ordinal in 0..form.blocks_of(n) {
                let shut = Case { changed_byte: BLOCK * ordinal + 1, byte_bits: 1, mended: true, ..plain(1, n, form) };
                cases.push(shut);
                cases.push(Case { mended: false, ..shut });
                cases.push(Case { word_room: 0, class_room: 0, other_room: 0, ..shut });
                cases.push(Case { given: BLOCK * ordinal + 511, ..shut });
                cases.push(Case { given: BLOCK * (ordinal + 1), ..shut });
                if form == TWO {
                    cases.push(Case { kinds: 5, other_room: 0, ..shut });
                }
            }
        }
    }
    cases
}

fn answer(list: &mut List, case: Case) {
    let given: Vec<Sample> = match case.listed {
        Some(sample) => (0..case.samples as u32).map(sample).collect(),
        None => made(case),
    };
    let (mut words, mut classes): (Vec<u32>, Vec<u8>) = given.iter().copied().unzip();
    words.resize(SAMPLES, 0);
    classes.resize(SAMPLES, 0);
    words[case.changed_sample] ^= case.word_bits;
    classes[case.changed_sample] ^= case.class_bits;
    let (words, classes) = (&words[..case.samples], &classes[..case.classes]);

    let asked = [
        u32::from(case.frame),
        case.samples as u32,
        case.seed,
        case.kinds,
        case.changed_sample as u32,
        case.word_bits,
        u32::from(case.class_bits),
        case.classes as u32,
        case.block_room as u32,
        u32::from(case.form.number),
        u32::from(case.mixed),
        case.changed_byte as u32,
        u32::from(case.byte_bits),
        u32::from(case.mended),
        case.given as u32,
        case.word_room as u32,
        case.class_room as u32,
        case.other_room as u32,
    ];
    asked.into_iter().for_each(|word| list.push(word));
    if case.listed.is_some() {
        for (word, class) in given {
            list.push(word);
            list.push(u32::from(class));
        }
    }

    let refusal = blocks::store_refusal(case.frame, words, classes, case.block_room);
    let stored =
        if refusal == 0 { Ok(blocks::write(TWO, case.frame, &blocks::classed(words, classes))) } else { Err(refusal) };
    let new = push_blocks(list, stored);
    let old = push_blocks(list, blocks::convert(TWO, ONE, &new, BYTES));

    let (mut bytes, other) = if case.form == ONE { (old, new) } else { (new, old) };
    if case.mixed {
        bytes[BLOCK..2 * BLOCK].copy_from_slice(&other[BLOCK..2 * BLOCK]);
    }
    bytes[case.changed_byte] ^= case.byte_bits;
    if case.mended {
        blocks::mend(&mut bytes, case.changed_byte);
    }
    let given = &bytes[..case.given];
    let both = blocks::read_both(given, case.word_room, case.class_room);
    let samples: &[Sample] = both.as_ref().map_or(&[], |(_, samples)| samples);
    push_frame(list, both.as_ref().map(|(frame, _)| *frame), samples.iter().map(|sample| sample.0).collect());
    let mut left = vec![UNTOUCHED_BYTE; SAMPLES];
    left.iter_mut().zip(samples).for_each(|(class, sample)| *class = sample.1);
    list.push(sum(left.iter().map(|&b| u32::from(b))));

    let form1 = blocks::read_form1(given, case.word_room);
    let words = form1.as_ref().map_or(Vec::new(), |(_, words)| words.clone());
    push_frame(list, form1.as_ref().map(|(frame, _)| *frame), words);
    push_blocks(list, blocks::convert(TWO, ONE, given, case.other_room));
    push_blocks(list, blocks::convert(ONE, TWO, given, case.other_room));
}

/// Samples from a seed: the maker's last step of each word is its class.
fn made(case: Case) -> Vec<Sample> {
    let classes = blocks::class_numbers(case.seed, case.samples);
    let words = blocks::words(case.seed, case.samples);
    words.into_iter().zip(classes).map(|(word, number)| (word & !3, (u32::from(number) % case.kinds) as u8)).collect()
}

/// Blocks that a call writes: the refusal, how many, the sum of the buffer, which comes back.
fn push_blocks(list: &mut List, written: Result<Vec<u8>, u32>) -> Vec<u8> {
    let mut bytes = vec![UNTOUCHED_BYTE; BYTES];
    let blocks = written.as_deref().unwrap_or(&[]);
    bytes[..blocks.len()].copy_from_slice(blocks);
    list.push(written.as_ref().err().copied().unwrap_or(0));
    list.push((blocks.len() / BLOCK) as u32);
    list.push(sum(bytes.iter().map(|&b| u32::from(b))));
    bytes
}

/// A frame that a call reads: the refusal, its number, how many words, the sum of the buffer.
fn push_frame(list: &mut List, frame: Result<u16, &u32>, words: Vec<u32>) {
    let mut left = vec![UNTOUCHED_WORD; SAMPLES];
    left[..words.len()].copy_from_slice(&words);
    list.push(frame.err().copied().unwrap_or(0));
    list.push(u32::from(frame.unwrap_or(0)));
    list.push(words.len() as u32);
    list.push(sum(left.into_iter()));
}

/// A sum that depends on the order, as the replay makes it.
fn sum(words: impl Iterator<Item = u32>) -> u32 {
    words.fold(1, |sum: u32, word| sum.wrapping_add(word).wrapping_mul(1_664_525).wrapping_add(1_013_904_223))
}
