//! Answers questions on standard input, a line for a line. README.md has the line format.

use oracle::Models;
use std::fmt::Display;
use std::io::{self, BufRead, Write};
use std::str::{FromStr, SplitWhitespace};

type Answer<T = String> = Result<T, String>;

/// docs/RULES.md, 'Plane'.
const LARGEST_SIDE: usize = 1024;
/// The last bit of a byte.
const LAST_START: usize = 7;

fn main() -> io::Result<()> {
    let mut out = io::stdout().lock();
    for line in io::stdin().lock().lines() {
        match answer(&line?) {
            Ok(text) => writeln!(out, "{text}")?,
            Err(reason) => writeln!(out, "error {reason}")?,
        }
    }
    Ok(())
}

fn answer(line: &str) -> Answer {
    let mut fields = Fields(line.split_whitespace());
    let text = match fields.next()? {
        "search" => fields.search(),
        "words" => fields.words(),
        "half" => fields.half(),
        "sample" => Ok(floats(&oracle::sample_of(fields.number()?))),
        "fit" => fields.fit(),
        "trimmed" => fields.trimmed(),
        "elect" => fields.elect(),
        "solve" => fields.solve(),
        "score" => Ok(floats(&[oracle::score(&fields.model()?, &fields.samples()?)])),
        "grid_number" => Ok(oracle::grid_number(fields.float()?).to_string()),
        "quantize_model" => fields.quantize_model(),
        "quantize" => fields.quantize(),
        "write" => fields.write(),
        "read" => fields.read(),
        "coefficient" => fields.coefficient(),
        question => Err(format!("no question {question}")),
    }?;
    match fields.next() {
        Ok(field) => Err(format!("{field} is a field too many")),
        Err(_) => Ok(text),
    }
}

/// The fields of a line that aren't taken yet.
struct Fields<'a>(SplitWhitespace<'a>);

/// The questions with more than one field, from their second field on.
impl Fields<'_> {
    fn search(&mut self) -> Answer {
        let (width, height, input, reference) = self.pair()?;
        let samples = oracle::search(&input, &reference, width, height);
        Ok(counted(samples.len(), floats(samples.as_flattened())))
    }

    fn words(&mut self) -> Answer {
        let (width, height, input, reference) = self.pair()?;
        let words = oracle::sample_words(&input, &reference, width, height);
        Ok(counted(words.len(), spaced(&words)))
    }

    fn half(&mut self) -> Answer {
        let (width, height) = (self.up_to(LARGEST_SIDE)?, self.up_to(LARGEST_SIDE)?);
        let plane: Vec<u16> = self.list(width * height, Self::number)?;
        let half = oracle::half_plane(&plane, width, height);
        Ok(counted(half.len(), spaced(&half)))
    }

    fn fit(&mut self) -> Answer {
        let kind = self.code()?;
        if kind == 0 {
            return Err("type 0 has no fit".into());
        }
        Ok(optional(oracle::fit(kind, &self.samples()?)))
    }

    fn trimmed(&mut self) -> Answer {
        let (kind, high) = (self.code()?, self.flag()?);
        if kind == 0 {
            return Err("type 0 has no fit".into());
        }
        Ok(match oracle::trimmed(kind, high, &self.samples()?) {
            None => "none".into(),
            Some(t) => format!("{} {} {}", t.used, floats(&t.model), spaced(&t.params)),
        })
    }

    fn elect(&mut self) -> Answer {
        let high = self.flag()?;
        Ok(match oracle::elect_or_row(high, &self.samples()?) {
            Err(_) => "none".into(),
            Ok(e) => format!("{} {} {}", e.kind, floats(&[e.score]), spaced(&e.params)),
        })
    }

    fn solve(&mut self) -> Answer {
        match self.next()? {
            "3" => Ok(optional(oracle::solve3(self.array(|f| f.array(Self::float))?, self.array(Self::float)?))),
            "4" => Ok(optional(oracle::solve4(self.array(|f| f.array(Self::float))?, self.array(Self::float)?))),
            size => Err(format!("{size} isn't 3 or 4")),
        }
    }

    fn quantize_model(&mut self) -> Answer {
        let (kind, high) = (self.code()?, self.flag()?);
        let model = self.array(Self::float)?;
        Ok(spaced(&oracle::quantize_model(&model, kind, high, &self.samples()?)))
    }

    fn quantize(&mut self) -> Answer {
        let (kind, high, slot) = (self.code()?, self.flag()?, self.up_to(5)?);
        Ok(oracle::quantize_global_param(kind, high, slot, self.number()?).to_string())
    }

    fn write(&mut self) -> Answer {
        let (high, start) = (self.flag()?, self.up_to(LAST_START)?);
        let types = self.array(Self::code)?;
        let (params, prior) = (self.models()?, self.models()?);
        let (bytes, bits) = oracle::write_header(&types, &params, high, &prior, start);
        let digits: String = bytes.iter().map(|byte| format!("{byte:02x}")).collect();
        Ok(format!("{bits} .{digits}"))
    }

    fn read(&mut self) -> Answer {
        let high = self.flag()?;
        let at = self.number()?;
        let (prior, bytes) = (self.models()?, self.bytes()?);
        Ok(match oracle::read_header(&bytes, at, high, &prior) {
            None => "none".into(),
            Some((types, params, bits)) => format!("{bits} {} {}", spaced(&types), spaced(params.as_flattened())),
        })
    }

    fn coefficient(&mut self) -> Answer {
        let (kind, high, slot) = (self.code()?, self.flag()?, self.up_to(5)?);
        let (prior, value) = (self.number()?, self.number()?);
        Ok(oracle::coefficient(kind, high, slot, prior, value))
    }
}

/// One field, or one list of fields.
impl<'a> Fields<'a> {
    fn next(&mut self) -> Answer<&'a str> {
        self.0.next().ok_or("the line ends early".into())
    }

    fn number<T: FromStr>(&mut self) -> Answer<T> {
        let field = self.next()?;
        field.parse().map_err(|_| format!("{field} isn't a number in range"))
    }

    fn up_to(&mut self, most: usize) -> Answer<usize> {
        match self.number()? {
            number if number <= most => Ok(number),
            number => Err(format!("{number} is over {most}")),
        }
    }

    /// A type, 0 to 3.
    fn code(&mut self) -> Answer<u8> {
        Ok(self.up_to(3)? as u8)
    }

    fn flag(&mut self) -> Answer<bool> {
        Ok(self.up_to(1)? == 1)
    }

    fn float(&mut self) -> Answer<f64> {
        float_of(self.next()?)
    }

    /// Bytes in hexadecimal after a full stop, which stands alone for none.
    fn bytes(&mut self) -> Answer<Vec<u8>> {
        let field = self.next()?;
        let digits = field.strip_prefix('.').filter(|digits| is_hexadecimal(digits) && digits.len() % 2 == 0);
        let digits = digits.ok_or_else(|| format!("{field} isn't a full stop and bytes"))?;
        let byte = |at: usize| u8::from_str_radix(&digits[at..at + 2], 16).map_err(|error| error.to_string());
        (0..digits.len()).step_by(2).map(byte).collect()
    }

    fn list<T>(&mut self, count: usize, take: impl Fn(&mut Self) -> Answer<T>) -> Answer<Vec<T>> {
        (0..count).map(|_| take(self)).collect()
    }

    fn array<T, const N: usize>(&mut self, take: impl Fn(&mut Self) -> Answer<T>) -> Answer<[T; N]> {
        let list = self.list(N, take)?;
        Ok(list.try_into().unwrap_or_else(|_| unreachable!("the list has N elements")))
    }

    fn model(&mut self) -> Answer<[i32; 6]> {
        self.array(Self::number)
    }

    fn models(&mut self) -> Answer<Models> {
        self.array(Self::model)
    }

    /// Width, height, input plane and reference plane.
    fn pair(&mut self) -> Answer<(usize, usize, Vec<u16>, Vec<u16>)> {
        let (width, height) = (self.up_to(LARGEST_SIDE)?, self.up_to(LARGEST_SIDE)?);
        let input = self.list(width * height, Self::number)?;
        let reference = self.list(width * height, Self::number)?;
        Ok((width, height, input, reference))
    }

    /// `words` and sample words, or `samples` and four floats for each, to the line's end.
    fn samples(&mut self) -> Answer<Vec<[f64; 4]>> {
        let form = self.next()?;
        let count = self.0.clone().count();
        match form {
            "words" => self.list(count, |fields| fields.number().map(oracle::sample_of)),
            "samples" => self.list(count.div_ceil(4), |fields| fields.array(Self::float)),
            _ => Err(format!("{form} isn't words or samples")),
        }
    }
}

/// 16 hexadecimal digits, the bits of a binary64.
fn float_of(field: &str) -> Answer<f64> {
    let digits = Some(field).filter(|digits| is_hexadecimal(digits) && digits.len() == 16);
    let bits = digits.and_then(|digits| u64::from_str_radix(digits, 16).ok());
    bits.map(f64::from_bits).ok_or_else(|| format!("{field} isn't 16 hexadecimal digits"))
}

fn is_hexadecimal(digits: &str) -> bool {
    digits.bytes().all(|digit| digit.is_ascii_hexdigit())
}

fn floats(values: &[f64]) -> String {
    let digits: Vec<String> = values.iter().map(|value| format!("{:016x}", value.to_bits())).collect();
    digits.join(" ")
}

fn spaced<T: Display>(values: &[T]) -> String {
    let texts: Vec<String> = values.iter().map(T::to_string).collect();
    texts.join(" ")
}

/// A count, then what it counts.
fn counted(count: usize, rest: String) -> String {
    format!("{count} {rest}").trim_end().into()
}

fn optional<const N: usize>(values: Option<[f64; N]>) -> String {
    values.map_or("none".into(), |values| floats(&values))
}
