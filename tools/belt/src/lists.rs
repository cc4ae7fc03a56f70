//! Lists in text files: models, priors and classes. Words are parted by white space; `#` begins a comment.

use crate::failure::Failure;
use crate::model::{self, TYPES};
use crate::output::shown;
use belt::{CLASSES, ClassSet, StoredModel};
use std::fmt::Write;
use std::fs::File;
use std::io::{self, Read};
use std::path::Path;

/// A list is no longer than this.
const LONGEST_TEXT: u64 = 1 << 20;

/// Seven models as stored, and their types where the file has them.
#[derive(Clone, Debug, PartialEq, Eq)]
pub struct ModelList {
    pub types: Option<[u8; 7]>,
    pub models: [StoredModel; 7],
}

/// Opens a file; `-` is standard input.
pub fn open(place: &Path) -> Result<Box<dyn Read>, Failure> {
    if place == Path::new("-") {
        return Ok(Box::new(io::stdin()));
    }
    Ok(Box::new(File::open(place).map_err(|error| Failure::bad(shown(place), error))?))
}

/// All bytes of a file.
pub fn bytes(place: &Path, most: u64) -> Result<Vec<u8>, Failure> {
    let mut bytes = Vec::new();
    open(place)?.take(most + 1).read_to_end(&mut bytes).map_err(|error| Failure::bad(shown(place), error))?;
    if bytes.len() as u64 > most {
        return Err(Failure::bad(shown(place), format!("it is over {most} bytes long")));
    }
    Ok(bytes)
}

fn read<T>(place: &Path, parse: impl Fn(&str) -> Result<T, String>) -> Result<T, Failure> {
    let text = String::from_utf8(bytes(place, LONGEST_TEXT)?).map_err(|_| "it is no text".to_string());
    text.and_then(|text| parse(&text)).map_err(|what| Failure::bad(shown(place), what))
}

/// The words of a text with the lines that they stand in, from 1.
fn words(text: &str) -> impl Iterator<Item = (usize, &str)> {
    let plain = |line: &'_ str| line.split('#').next().unwrap_or("").len();
    (1..)
        .zip(text.lines())
        .flat_map(move |(number, line)| line[..plain(line)].split_whitespace().map(move |word| (number, word)))
}

/// Reads seven models: of each its six numbers as stored, with the type's name before them or without.
pub fn models(place: &Path) -> Result<ModelList, Failure> {
    read(place, parse_models)
}

fn parse_models(text: &str) -> Result<ModelList, String> {
    let (mut types, mut numbers) = (Vec::new(), Vec::new());
    for (line, word) in words(text) {
        match model::code(word) {
            Some(code) if numbers.len() == 6 * types.len() => types.push(code),
            Some(_) if numbers.len() % 6 == 0 => {
                return Err(format!("line {line}: '{word}' isn't the one type ahead of its model's six numbers"));
            }
            Some(_) => return Err(format!("line {line}: '{word}' stands among a model's six numbers")),
            None => numbers.push(word.parse().map_err(|_| format!("line {line}: '{word}' is no number of 32 bits"))?),
        }
    }
    if numbers.len() != 42 {
        let count = numbers.len();
        return Err(format!("it has {count} numbers; seven models have 42, six for each of references 1 to 7"));
    }
    let model = |i: usize| StoredModel(std::array::from_fn(|slot| numbers[6 * i + slot]));
    let types = match types.len() {
        0 => None,
        7 => Some(std::array::from_fn(|i| types[i])),
        count => return Err(format!("it has {count} types; name all seven or none")),
    };
    Ok(ModelList { types, models: std::array::from_fn(model) })
}

/// Seven models as such a file.
pub fn models_text(types: &[u8; 7], models: &[StoredModel; 7]) -> String {
    let mut text = "# seven models as stored: type, then six numbers at 16 fraction bits\n".to_string();
    for (i, (&gm_type, model)) in types.iter().zip(models).enumerate() {
        let numbers = model.0.map(|number| number.to_string()).join(" ");
        let _ = writeln!(text, "{} {numbers} # reference {}", TYPES[usize::from(gm_type)], i + 1);
    }
    text
}

/// Reads classes, by their codes or words, one for each block, row by row.
pub fn classes(place: &Path) -> Result<Vec<u8>, Failure> {
    read(place, parse_classes)
}

fn parse_classes(text: &str) -> Result<Vec<u8>, String> {
    let class = |(line, word): (usize, &str)| class(word).ok_or(format!("line {line}: '{word}' is no class"));
    words(text).map(class).collect()
}

/// The code of a class's word, or a number.
fn class(word: &str) -> Option<u8> {
    let named = CLASSES.iter().position(|name| name.replace(' ', "-") == word).map(|code| code as u8);
    named.or(word.parse().ok())
}

/// The set of some classes with commas between them.
pub fn class_set(text: &str) -> Result<ClassSet, Failure> {
    parse_set(text).map_err(|what| Failure::bad("--set", what))
}

fn parse_set(text: &str) -> Result<ClassSet, String> {
    let class = |word: &str| class(word).ok_or(format!("'{word}' is no class"));
    Ok(ClassSet::of(&text.split(',').map(class).collect::<Result<Vec<_>, _>>()?))
}

#[cfg(test)]
mod tests {
    use super::*;

    #[test]
    fn models_are_written_and_read_back() {
        let types = [0, 1, 2, 3, 0, 0, 1];
        let models = std::array::from_fn(|i| StoredModel([i as i32, -5, 65536, i32::MIN, i32::MAX, 65536]));
        let read = parse_models(&models_text(&types, &models)).unwrap();
        assert_eq!(read, ModelList { types: Some(types), models });
        let plain = "0 0 65536 0 0 65536\n".repeat(7);
        assert_eq!(parse_models(&plain).unwrap(), ModelList { types: None, models: belt::IDENTITIES });
    }

    #[test]
    fn bad_models_are_said_with_their_line() {
        let said = |text: &str| parse_models(text).unwrap_err();
        assert_eq!(said("0 0 # x\n0 zero"), "line 2: 'zero' is no number of 32 bits");
        assert_eq!(said("2147483648"), "line 1: '2147483648' is no number of 32 bits");
        assert_eq!(said("1 affine"), "line 1: 'affine' stands among a model's six numbers");
        assert_eq!(said("1 2 3"), "it has 3 numbers; seven models have 42, six for each of references 1 to 7");
        let twice = format!("affine affine {}", "0 ".repeat(42));
        assert_eq!(said(&twice), "line 1: 'affine' isn't the one type ahead of its model's six numbers");
        let late = format!("{}\naffine {}", "0 ".repeat(6), "0 ".repeat(36));
        assert_eq!(said(&late), "line 2: 'affine' isn't the one type ahead of its model's six numbers");
        let one = format!("affine {}", "0 ".repeat(42));
        assert_eq!(said(&one), "it has 1 types; name all seven or none");
    }

    #[test]
    fn classes_have_codes_and_words() {
        assert_eq!(parse_classes("0 1 2\n3 4 # the lower row\n").unwrap(), [0, 1, 2, 3, 4]);
        assert_eq!(parse_classes("unsorted fibre rigid-plastic metal film 200").unwrap(), [0, 1, 2, 3, 4, 200]);
        assert_eq!(parse_classes("\n\nglass").unwrap_err(), "line 3: 'glass' is no class");
        assert_eq!(parse_classes("256").unwrap_err(), "line 1: '256' is no class");
        assert_eq!(parse_set("film,1,rigid-plastic").unwrap(), ClassSet::of(&[1, 2, 4]));
        assert_eq!(parse_set("5,200").unwrap(), ClassSet::of(&[5, 7]));
        assert_eq!(parse_set("metal,").unwrap_err(), "'' is no class");
    }
}
