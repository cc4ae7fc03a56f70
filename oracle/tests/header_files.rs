//! The headers of ../shared/data, made by other encoders: read at their place, and written again.

use oracle::header_files::{Header, headers};
use oracle::{read_header, write_header};

#[test]
fn real_headers() {
    assert_eq!(check("real_headers.jsonl"), 360);
}

#[test]
fn libaom_writer() {
    assert_eq!(check("libaom_writer.jsonl"), 400);
}

/// Reads and writes each header of a file; the number of headers.
fn check(name: &str) -> usize {
    let headers = headers(name);
    for (index, header) in headers.iter().enumerate() {
        let place = format!("{name} line {}", index + 1);
        assert_read(header, &place);
        assert_written(header, &place);
    }
    headers.len()
}

fn assert_read(header: &Header, place: &str) {
    let read = |length: usize| read_header(&header.bytes[..length], header.start, header.high, &header.prior);
    assert_eq!(read(header.bytes.len()), Some((header.types, header.params, header.bits)), "{place}");
    let used = (header.start + header.bits).div_ceil(8);
    for length in 0..used {
        assert_eq!(read(length), None, "{place} cut to {length} bytes");
    }
}

fn assert_written(header: &Header, place: &str) {
    let (bytes, bits) = write_header(&header.types, &header.params, header.high, &header.prior, 0);
    assert_eq!(bits, header.bits, "{place}");
    for i in 0..bits {
        assert_eq!(bit(&bytes, i), bit(&header.bytes, header.start + i), "{place} bit {i}");
    }
}

fn bit(bytes: &[u8], at: usize) -> u8 {
    bytes[at / 8] >> (7 - at % 8) & 1
}
