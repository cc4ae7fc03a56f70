//! The lists for `worked_elect`: elections of lists of words, and of lists of samples of any numbers. The arguments are the
//! two files to write. For each case: the words, or the count of the samples and those of them that are written out, which
//! come round again; the flag; then the refusal, the type, the six numbers as stored and the score.

use oracle::list::{Lcg, List, MOST_SAMPLES, across, loose_words};
use std::{env, io};

const SEED: u32 = 6;
const TOO_MANY: u32 = 1;
const BAD_CODE: u32 = 4;

/// Lists whose election turns on one rule each: 0.8 without 0.02, 0.02 without 0.8, the held type and not the one before,
/// the gate, the shear.
const TURNS: [&[u32]; 5] = [
    &[0x0005A364, 0x0015A364, 0x0025AB64, 0x0405A364, 0x0415A364, 0x0425AB64, 0x0805A368, 0x0815AB68, 0x0825AB68],
    &[0x00074B68, 0x00174B6C, 0x00273B84, 0x04073B98, 0x04173B74, 0x04275370, 0x0807537C, 0x08175384, 0x08272B88],
    &[0x0007FC34, 0x0017C430, 0x0027CC18, 0x0407E44C, 0x0417C434, 0x04281448, 0x08081C2C, 0x0817CC60, 0x0827EC3C],
    &[0x00070BBC, 0x00172BBC, 0x00275BA4, 0x04073B74, 0x04171BBC, 0x0427038C, 0x080703BC, 0x0816FBBC, 0x08273BB0],
    &[
        0x0006FBAC, 0x001693E0, 0x00262C14, 0x0035CC44, 0x040763E0, 0x0416FC14, 0x04269444, 0x04362C78, 0x0807CC14,
        0x08176444, 0x0826FC78, 0x083694AC, 0x0C082C44, 0x0C17CC78, 0x0C2764AC, 0x0C36FCE0,
    ],
];

fn main() -> io::Result<()> {
    let mut paths = env::args().skip(1);
    let mut path = || paths.next().expect("the arguments are the files of elections of words and of samples");
    words().write(path())?;
    samples().write(path())
}

fn words() -> List {
    let lcg = &mut Lcg(SEED);
    let mut lists: Vec<Vec<u32>> = TURNS.iter().map(|words| words.to_vec()).collect();
    // the floor and just below it, too few, a number that either flag has its own grid for, one place
    lists.extend([vec![4; 4], vec![3; 4], vec![80; 3], vec![13; 4], vec![80; 2]].map(|eighths| across(&eighths)));
    lists.push(vec![across(&[80])[0]; 8]);
    // the result on the grid is the identity, or nearly
    lists.extend((0..8).map(|u| across(&[u, -u, u, -u, 8, -8, 8, -8])));
    lists.push(Vec::new());
    for count in (1..40).chain([60, 125, 500]) {
        lists.extend([0, 1, 3, 9, 32].map(|loose| loose_words(lcg, count, loose)));
    }
    lists.push(loose_words(lcg, MOST_SAMPLES, 5));
    lists.push(Lcg(SEED).words(60));
    let mut cases: Vec<(Vec<u32>, u8)> = lists.into_iter().flat_map(|words| [(words.clone(), 0), (words, 1)]).collect();
    // rows 1 and 4, also both at once
    let many = vec![across(&[80])[0]; MOST_SAMPLES + 1];
    cases.extend([(many.clone(), 0), (many, 2), (Vec::new(), 2), (across(&[80; 9]), 255)]);
    let mut list = List::default();
    list.push(cases.len() as u32);
    for (words, flag) in &cases {
        list.push(words.len() as u32);
        words.iter().for_each(|&word| list.push(word));
        let samples = words.iter().map(|&word| oracle::sample_of(word)).collect::<Vec<_>>();
        push_elected(&mut list, *flag, &samples);
    }
    list
}

fn push_elected(list: &mut List, flag: u8, samples: &[[f64; 4]]) {
    let answer = match samples.len() {
        count if count > MOST_SAMPLES => Err(TOO_MANY),
        _ if flag > 1 => Err(BAD_CODE),
        _ => oracle::elect_or_row(flag == 1, samples),
    };
    list.push(u32::from(flag));
    list.push(answer.map_or_else(|refusal| refusal, |_| 0));
    list.push(answer.map_or(0, |elected| u32::from(elected.kind)));
    answer.map_or([0; 6], |elected| elected.params).iter().for_each(|&param| list.push_signed(param));
    list.push_float(answer.map_or(0.0, |elected| elected.score));
}

/// Samples at block centres of the first row, with motions u and none down.
fn in_a_row(motions: &[f64]) -> Vec<[f64; 4]> {
    motions.iter().enumerate().map(|(place, &u)| [7.5 + 16.0 * place as f64, 7.5, u, 0.0]).collect()
}

fn samples() -> List {
    let lcg = &mut Lcg(SEED);
    let mut cases: Vec<(usize, Vec<[f64; 4]>)> = Vec::new();
    // an energy and errors that are infinite; a not-a-number among too few and among enough; one that ends the call of a
    // list with a type held, and of a still one
    cases.push((4, in_a_row(&[1.2e154, -1.2e154, 1.2e154, -1.2e154])));
    cases.push((3, in_a_row(&[f64::NAN, 8.0, 8.0])));
    cases.push((4, in_a_row(&[f64::NAN, 8.0, 8.0, 8.0])));
    for odd in [f64::NAN, f64::INFINITY, 1e200, 1e160, 1e150] {
        for place in 0..4 {
            let mut made = in_a_row(&[8.0; 9]);
            made[4][place] = odd;
            cases.push((9, made.clone()));
            made.iter_mut().for_each(|sample| sample[2] = 0.0);
            cases.push((9, made));
        }
    }
    for count in (0..24).chain([60, MOST_SAMPLES, MOST_SAMPLES + 1]) {
        for (loose, scale) in [(0, 1.1), (1, 0.9), (3, 1.1), (9, 1e3), (32, 1.1), (3, 0.05)] {
            let written = if count < 64 { count } else { 9 };
            let words = loose_words(lcg, written, loose);
            cases.push((count, words.iter().map(|&word| oracle::sample_of(word).map(|n| scale * n)).collect()));
        }
    }
    let mut list = List::default();
    list.push(2 * cases.len() as u32);
    for (count, written) in &cases {
        for flag in [0, 1] {
            list.push(*count as u32);
            list.push(written.len() as u32);
            written.iter().flatten().for_each(|&number| list.push_float(number));
            let samples = written.iter().cycle().take(*count).copied().collect::<Vec<_>>();
            push_elected(&mut list, flag, &samples);
        }
    }
    list
}
