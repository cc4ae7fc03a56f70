//! belt list: the samples in a file of blocks, one block after the other.

use crate::failure::Failure;
use crate::lists;
use crate::output::{self, Files, Out, shown, unwritten};
use belt::{BLOCK_BYTES, CLASSES, Refusal, TEXT_BYTES};
use std::io::{BufReader, BufWriter, Read, Write};
use std::path::Path;

pub fn run(place: &Path, csv: bool) -> Result<(), Failure> {
    Files::judge([place], [])?;
    let mut blocks = BufReader::new(lists::open(place)?);
    let mut out = BufWriter::new(Out);
    if csv {
        writeln!(out, "frame,row,column,x,y,right,down,class").map_err(unwritten)?;
    }
    let (mut number, mut more) = (0, 0);
    let mut refused: Option<(usize, Refusal)> = None;
    while !output::is_closed() {
        let mut block = Vec::with_capacity(BLOCK_BYTES);
        let read = blocks.by_ref().take(BLOCK_BYTES as u64).read_to_end(&mut block);
        if read.map_err(|error| Failure::bad(shown(place), error))? == 0 {
            break;
        }
        let mut text = [0; TEXT_BYTES];
        let text = belt::list_block(&block, &mut text);
        let judged = belt::judge_block(&block);
        match (csv, &judged) {
            (false, _) => out.write_all(text.as_bytes()).map_err(unwritten)?,
            (true, Ok(_)) => table(text, &mut out).map_err(unwritten)?,
            (true, Err(_)) => {}
        }
        if let Err(refusal) = judged {
            more += usize::from(refused.is_some());
            refused.get_or_insert((number, refusal));
        }
        number += 1;
    }
    out.flush().map_err(unwritten)?;
    let Some((number, refusal)) = refused else { return Ok(()) };
    let place = format!("{}, block {number} (byte {})", shown(place), number * BLOCK_BYTES);
    let failure = Failure::refused(place, refusal);
    Err(if more == 0 { failure } else { failure.with_advice(format!("and {more} more")) })
}

/// A block's text as rows of the table.
fn table(text: &str, out: impl Write) -> csv::Result<()> {
    let mut rows = csv::Writer::from_writer(out);
    let mut lines = text.lines();
    let frame = lines.next().and_then(|line| line.split(' ').nth(1)).unwrap_or("");
    for line in lines {
        let numbers: Vec<i32> = line.split(' ').filter_map(|word| word.parse().ok()).collect();
        let [row, column, down, right, class] = numbers[..] else { continue };
        let centre = |place: i32| f64::from(16 * place) + 7.5;
        let pels = |eighths: i32| f64::from(eighths) / 8.0;
        let [x, y, right, down] = [centre(column), centre(row), pels(right), pels(down)].map(|pel| pel.to_string());
        rows.write_record([
            frame,
            &row.to_string(),
            &column.to_string(),
            &x,
            &y,
            &right,
            &down,
            CLASSES[class as usize],
        ])?;
    }
    rows.flush()?;
    Ok(())
}

#[cfg(test)]
mod tests {
    use super::*;

    #[test]
    fn a_block_is_rows_of_the_table() {
        let mut block = [0; BLOCK_BYTES];
        belt::write_frame(5, &[0x0006_FB7C, 0x0856_BBCC], &[belt::FILM, belt::RIGID_PLASTIC], &mut block).unwrap();
        let (mut text, mut rows) = ([0; TEXT_BYTES], Vec::new());
        table(belt::list_block(&block, &mut text), &mut rows).unwrap();
        assert_eq!(String::from_utf8(rows).unwrap(), "5,0,0,7.5,7.5,0,0,film\n5,2,5,87.5,39.5,2.5,-1,rigid plastic\n");
    }
}
