//! The list for `worked_by_class`: the six calls over the samples of named classes, filtered here and handed to the Rust.
//! For each case: the words, their classes, a set, a type and a flag, and a model to score. Then of the fit the refusal and
//! six numbers, zeros after those that its type carries; of its model on the grid, or of the model of the whole list's fit
//! where it is refused, the refusal and the numbers; the refusal and the score; of the fit after trimming and of its model
//! the refusal, the samples used and the numbers; of the election the refusal, the type, the numbers as stored and the
//! score.

use oracle::list::{Lcg, List, MOST_SAMPLES, across, loose_words};
use std::{env, io};

const SEED: u32 = 14;
const TOO_MANY: u32 = 1;
const WRONG_LENGTH: u32 = 2;
const BAD_CODE: u32 = 4;
const NO_CLASS: u32 = 19;
const LAST_CLASS: u8 = 4;
const ALL_CLASSES: u8 = 31;
const STILL: [i32; 6] = [0, 0, 65536, 0, 0, 65536];

#[derive(Clone)]
struct Case {
    words: Vec<u32>,
    classes: Vec<u8>,
    set: u8,
    kind: u8,
    flag: u8,
    params: [i32; 6],
}

impl Case {
    /// Rows 1, 2, 4 and 19, with the call's own condition of row 4.
    fn judged(&self, wrong: bool) -> Result<Vec<[f64; 4]>, u32> {
        let listed = self.classes.iter().all(|&class| class <= LAST_CLASS);
        match self.set {
            _ if self.words.len() > MOST_SAMPLES => Err(TOO_MANY),
            _ if self.classes.len() != self.words.len() => Err(WRONG_LENGTH),
            set if wrong || !listed || set > ALL_CLASSES => Err(BAD_CODE),
            0 => Err(NO_CLASS),
            set => {
                let pairs = self.words.iter().zip(&self.classes);
                let named = pairs.filter(|&(_, &class)| set >> class & 1 == 1);
                Ok(named.map(|(&word, _)| oracle::sample_of(word)).collect())
            }
        }
    }

    /// The fit of the whole list, if it has one.
    fn fit_of_all(&self) -> Option<[f64; 6]> {
        if self.words.len() > MOST_SAMPLES || !(1..=3).contains(&self.kind) {
            return None;
        }
        oracle::fit(self.kind, &self.words.iter().map(|&word| oracle::sample_of(word)).collect::<Vec<_>>())
    }

    fn push(&self, list: &mut List) {
        list.push(self.words.len() as u32);
        list.push(self.classes.len() as u32);
        self.words.iter().for_each(|&word| list.push(word));
        self.classes.iter().for_each(|&class| list.push(u32::from(class)));
        [self.set, self.kind, self.flag].iter().for_each(|&code| list.push(u32::from(code)));
        self.params.iter().for_each(|&param| list.push_signed(param));
        let (no_type, no_flag) = (!(1..=3).contains(&self.kind), self.flag > 1);
        let high = self.flag == 1;

        let fitted = self.judged(no_type).and_then(|samples| oracle::fit(self.kind, &samples).ok_or(oracle::SINGULAR));
        push_refusal(list, fitted.err());
        self.push_numbers(list, fitted.unwrap_or_default());
        let model = fitted.ok().or_else(|| self.fit_of_all());
        let quantized = self
            .judged(model.is_none() || no_flag)
            .map(|samples| oracle::quantize_model(&model.unwrap(), self.kind, high, &samples));
        push_refusal(list, quantized.err());
        quantized.unwrap_or_default().iter().for_each(|&param| list.push_signed(param));

        let score = self.judged(false).map(|samples| oracle::score(&self.params, &samples));
        push_refusal(list, score.err());
        list.push_float(score.unwrap_or_default());

        let trimmed =
            |wrong, high| self.judged(wrong).and_then(|samples| oracle::trimmed_or_row(self.kind, high, &samples));
        let fit = trimmed(no_type, false);
        push_refusal(list, fit.err());
        list.push(fit.map_or(0, |trimmed| trimmed.used as u32));
        self.push_numbers(list, fit.map_or([0.0; 6], |trimmed| trimmed.model));
        let model = trimmed(no_type || no_flag, high);
        push_refusal(list, model.err());
        list.push(model.map_or(0, |trimmed| trimmed.used as u32));
        model.map_or([0; 6], |trimmed| trimmed.params).iter().for_each(|&param| list.push_signed(param));

        let elected = self.judged(no_flag).and_then(|samples| oracle::elect_or_row(high, &samples));
        push_refusal(list, elected.err());
        list.push(elected.map_or(0, |elected| u32::from(elected.kind)));
        elected.map_or([0; 6], |elected| elected.params).iter().for_each(|&param| list.push_signed(param));
        list.push_float(elected.map_or(0.0, |elected| elected.score));
    }

    /// The numbers that the type carries, and zeros.
    fn push_numbers(&self, list: &mut List, model: [f64; 6]) {
        let carried = [0, 2, 4, 6].get(usize::from(self.kind)).copied().unwrap_or(0);
        model.iter().enumerate().for_each(|(slot, &value)| list.push_float(if slot < carried { value } else { 0.0 }));
    }
}

fn push_refusal(list: &mut List, refusal: Option<u32>) {
    list.push(refusal.unwrap_or(0));
}

fn main() -> io::Result<()> {
    let path = env::args().nth(1).expect("the argument is the file to write");
    let mut cases = worked();
    cases.extend(random(&mut Lcg(SEED)));
    let mut list = List::default();
    list.push(cases.len() as u32);
    cases.iter().for_each(|case| case.push(&mut list));
    list.write(path)
}

/// Four words of u 80 in row 0, of class 1, and four of v -40 in row 1, of class 4.
fn eight() -> Case {
    let mut words = across(&[80; 4]);
    words.extend((0..4).map(|column| 1 << 26 | column << 20 | (223 - 40) << 11 | 223 << 2));
    Case { words, classes: vec![1, 1, 1, 1, 4, 4, 4, 4], set: ALL_CLASSES, kind: 1, flag: 1, params: STILL }
}

/// The eight under several sets, with class bits that say otherwise, and with a fault or two.
fn worked() -> Vec<Case> {
    let eight = eight();
    let mut cases = Vec::new();
    for bits in 0..4 {
        for set in [1 << 1, 1 << 4, 1 << 1 | 1 << 4, ALL_CLASSES, 1 << 2, 1 << 0, 1 << 3 | 1 << 4] {
            for (kind, flag) in [(1, 0), (1, 1), (2, 1), (3, 1)] {
                let words = eight.words.iter().map(|word| word | bits).collect();
                cases.push(Case { words, set, kind, flag, ..eight.clone() });
            }
        }
    }
    // no set, a set of a class over 4, a list that is short or long, a class over 4 in it, no type, no flag, too many words
    for set in [0, 1 << 1, 1 << 5, 1 << 5 | 1 << 1, 255] {
        for (kind, flag) in [(1, 1), (0, 1), (4, 1), (1, 2)] {
            let case = Case { set, kind, flag, ..eight.clone() };
            let mut short = case.clone();
            short.classes.pop();
            let mut long = case.clone();
            long.classes.push(5);
            let mut unknown = case.clone();
            unknown.classes[7] = 5;
            cases.extend([case, short, long, unknown]);
        }
        cases.push(Case { words: vec![eight.words[0]; MOST_SAMPLES + 1], set, kind: 0, ..eight.clone() });
    }
    cases
}

fn random(lcg: &mut Lcg) -> Vec<Case> {
    let mut cases = Vec::new();
    for count in (0..40).chain([60, 125, 500, MOST_SAMPLES]) {
        for (loose, kind) in [(0, 1), (3, 2), (9, 3)] {
            let words = loose_words(lcg, count, loose);
            let words = words.into_iter().map(|word| word | u32::from(lcg.below(4))).collect();
            let classes = (0..count).map(|_| lcg.below(5) as u8).collect();
            let params = std::array::from_fn(|slot| STILL[slot] + 64 * (i32::from(lcg.below(9)) - 4));
            let set = 1 + lcg.below(31) as u8;
            cases.push(Case { words, classes, set, kind, flag: lcg.below(2) as u8, params });
        }
    }
    cases
}
