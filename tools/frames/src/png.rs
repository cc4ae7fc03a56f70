//! PNG files: grey as it is, colour by its brightness; what is transparent counts by its colour.

use super::{Head, LONGEST_SIDE, Layout, Rows, Source};
use png::{BitDepth, ColorType, Decoder, DecodingError, Reader, Transformations};

/// The decoder keeps at most so many bytes beside a row: no more than a picture of the largest sides that are measured
/// whole, interlaced.
const MOST_BYTES: usize = 1 << 26;

struct Decoded {
    reader: Reader<Source>,
    layout: Layout,
    /// The whole picture where its rows don't stand in order.
    interlaced: Option<(Vec<u8>, usize)>,
}

fn bad(error: DecodingError) -> String {
    format!("cut short or damaged: {error}")
}

/// Reads the head; the pels come next.
pub fn head(source: Source) -> Result<Head, String> {
    let mut decoder = Decoder::new_with_limits(source, png::Limits { bytes: MOST_BYTES });
    decoder.set_transformations(Transformations::EXPAND);
    let reader = decoder.read_info().map_err(bad)?;
    let (width, height) = reader.info().size();
    if u64::from(width.max(height)) > LONGEST_SIDE {
        return Err(format!("the head says {width}×{height} pels: no picture is so large"));
    }
    let (colour, depth) = reader.output_color_type();
    let values = match colour {
        ColorType::Grayscale => 1,
        ColorType::GrayscaleAlpha => 2,
        ColorType::Rgb | ColorType::Indexed => 3,
        ColorType::Rgba => 4,
    };
    let (bytes, most) = if depth == BitDepth::Sixteen { (2, u16::MAX) } else { (1, 255) };
    let layout = Layout { bytes, low_first: false, values };
    let interlaced = reader.info().interlaced.then(|| (Vec::new(), 0));
    let rows = Box::new(Decoded { reader, layout, interlaced });
    Ok(Head { width: width as usize, height: height as usize, most, rows })
}

impl Rows for Decoded {
    fn row(&mut self, pels: &mut Vec<u16>) -> Result<(), String> {
        let Some((whole, at)) = &mut self.interlaced else {
            let row = self.reader.next_row().map_err(bad)?.ok_or("cut short: it ends before its last row")?;
            self.layout.pels(row.data(), pels);
            return Ok(());
        };
        if whole.is_empty() {
            let size = self.reader.output_buffer_size();
            if size > MOST_BYTES {
                return Err("it is interlaced and too large to be read so".into());
            }
            whole.resize(size, 0);
            self.reader.next_frame(whole).map_err(bad)?;
        }
        let row = self.reader.output_line_size(self.reader.info().width);
        self.layout.pels(&whole[*at..*at + row], pels);
        *at += row;
        Ok(())
    }

    /// The checks behind the last row.
    fn end(&mut self) -> Result<(), String> {
        while self.interlaced.is_none() && self.reader.next_row().map_err(bad)?.is_some() {}
        Ok(())
    }
}
