//! A clip that is recorded by the library's run of frames, and read back: sample blocks in one file, headers in another.
//!
//! Blocks follow each other as they are. The file of headers has a head of 16 bytes and then records; numbers have their
//! highest byte first, and a check is the CRC-32 of the bytes ahead of it, of the head or the record.
//!
//! | head | bytes |
//! |---|---|
//! | `BELTRUN` and the version, 1 | 8 |
//! | flag and form that the run begins with | 2 |
//! | zeros | 2 |
//! | check | 4 |
//!
//! | record | bytes |
//! |---|---|
//! | what it is of: [`Of`] | 1 |
//! | how often the frames were halved | 1 |
//! | the number that the pair's blocks carry; of a key frame, of the pair behind it; at the end 0 | 2 |
//! | the clip's frames of the pair, the first and the second; at the end how many pairs there are, and 0 | 16 |
//! | width and height of what was measured | 4 |
//! | how many samples the pair's blocks hold | 2 |
//! | how many bits its header has | 2 |
//! | CRC-32 of its blocks | 4 |
//! | the header, from the first bit on, and zeros to the end of its last byte | |
//! | check | 4 |
//!
//! A key frame stands ahead of a pair and has no bits. A pair that is bad has neither bits nor samples, and moves nothing.
//! The last record is the end's, so a file that was cut is told from a whole one.

#![forbid(unsafe_code)]
#![deny(missing_docs)]

use belt::{Form, HEADER_BYTES, IDENTITIES, Kind, Models, Refusal, Run, RunReader, StoredModel};
use bincode::Options;
use serde::{Deserialize, Serialize};
use std::error::Error;
use std::fmt;
use std::io::{BufReader, Read};
use track::Status;

/// How a file of headers begins.
const MAGIC: &[u8; 8] = b"BELTRUN\x01";
/// The bytes of a head, of what is fixed in a record, and of a check.
const HEAD: usize = 16;
const FIXED: usize = 32;
const CHECK: usize = 4;
/// A recording has high precision and form 2.
const HIGH_PRECISION: u8 = 1;
const FORM: u32 = 2;
/// The numbers that blocks can carry; 0 is the shutter closed.
const NUMBERS: u64 = 65_535;
/// Frames are halved at most so often.
const MOST_HALVINGS: u8 = 6;

/// The number that the blocks of a pair carry: 1 to 65,535, and from 1 on again.
fn number(pair: u64) -> u16 {
    (pair % NUMBERS + 1) as u16
}

/// Bytes with their check behind them.
fn checked(mut bytes: Vec<u8>) -> Vec<u8> {
    bytes.extend(crc32fast::hash(&bytes).to_be_bytes());
    bytes
}

/// How numbers stand in a record: as many bytes as they have, the highest first.
fn shape() -> impl Options {
    bincode::options().with_fixint_encoding().with_big_endian()
}

/// What a record is of; its code is its place in the list.
#[derive(Clone, Copy, Debug, PartialEq, Eq, Serialize, Deserialize)]
#[serde(into = "u8", try_from = "u8")]
pub enum Of {
    /// A key frame, ahead of a pair.
    Key,
    /// A pair that was measured with this status.
    Pair(Status),
    /// A pair that is bad.
    Bad,
    /// The end.
    End,
}

impl Of {
    const ALL: [Of; 8] = [
        Of::Key,
        Of::Pair(Status::Measured),
        Of::Pair(Status::Still),
        Of::Pair(Status::Unexplained),
        Of::Pair(Status::Flat),
        Of::Pair(Status::NoBlocks),
        Of::Bad,
        Of::End,
    ];
}

impl From<Of> for u8 {
    fn from(of: Of) -> u8 {
        Of::ALL.iter().position(|own| *own == of).expect("all are in the list") as u8
    }
}

impl TryFrom<u8> for Of {
    type Error = String;

    fn try_from(code: u8) -> Result<Of, String> {
        Of::ALL.get(usize::from(code)).copied().ok_or(format!("a record of kind {code}, which isn't known"))
    }
}

/// A record of a file of headers, in the order of its bytes.
#[derive(Clone, Debug, PartialEq, Eq, Serialize, Deserialize)]
pub struct Record {
    /// What it is of.
    pub of: Of,
    /// How often the frames were halved.
    pub halvings: u8,
    /// The number that the pair's blocks carry.
    pub number: u16,
    /// The pair's frames in the clip.
    pub frames: (u64, u64),
    /// The sides of what was measured.
    pub sides: (u16, u16),
    /// How many samples its blocks hold.
    pub samples: u16,
    /// The bits of its header.
    pub bits: u16,
    /// The check of its blocks.
    blocks: u32,
    /// The header, from the first bit on.
    #[serde(skip)]
    pub header: Vec<u8>,
}

impl Record {
    /// One without header and samples.
    fn plain(of: Of, number: u16, frames: (u64, u64)) -> Record {
        Record { of, halvings: 0, number, frames, sides: (0, 0), samples: 0, bits: 0, blocks: 0, header: Vec::new() }
    }

    fn bytes(&self) -> Vec<u8> {
        let mut bytes = shape().serialize(self).expect("numbers are bytes");
        bytes.extend(&self.header);
        checked(bytes)
    }

    /// What stands in a record whose check is right.
    fn of_bytes(bytes: &[u8]) -> Result<Record, String> {
        let fixed: Record = shape().deserialize(&bytes[..FIXED]).map_err(|error| error.to_string())?;
        let record = Record { header: bytes[FIXED..].to_vec(), ..fixed };
        let (sides, samples) = (record.sides, usize::from(record.samples));
        let right = match record.of {
            Of::Pair(_) => {
                record.halvings <= MOST_HALVINGS && samples == belt::sample_count(sides.0.into(), sides.1.into())
            }
            of => record == Record::plain(of, record.number, record.frames),
        };
        if right { Ok(record) } else { Err("a record that contradicts itself".into()) }
    }
}

/// Records the pairs of a clip, one after the other.
pub struct Recorder {
    run: Run,
    /// A key frame stands ahead of so many pairs; of 0, ahead of the first alone.
    every: u64,
    pairs: u64,
}

/// What was found in a pair, to be stored.
#[derive(Clone, Copy, Debug)]
pub struct Found<'a> {
    /// Whether a motion was measured.
    pub status: Status,
    /// How often the frames were halved.
    pub halvings: u8,
    /// The sides of what was measured.
    pub sides: (u16, u16),
    /// The types that were elected.
    pub types: &'a [u8; 7],
    /// Their models.
    pub models: &'a [StoredModel; 7],
    /// The samples.
    pub words: &'a [u32],
}

/// What is stored of a pair.
pub struct Stored {
    /// Its bytes of the file of blocks.
    pub blocks: Vec<u8>,
    /// Its bytes of the file of headers.
    pub headers: Vec<u8>,
}

impl Recorder {
    /// Begins a recording with a key frame ahead of so many pairs; of 0, ahead of the first alone.
    pub fn begin(every: u64) -> Result<Recorder, Refusal> {
        Ok(Recorder { run: Run::start(HIGH_PRECISION, FORM)?, every, pairs: 0 })
    }

    /// How the file of headers begins.
    pub fn head(&self) -> Vec<u8> {
        checked([&MAGIC[..], &[self.run.flag(), self.run.form() as u8, 0, 0]].concat())
    }

    /// The next pair, of these frames. What was elected is stored, whatever was measured; of a bad pair nothing is.
    pub fn pair(&mut self, frames: (u64, u64), found: Option<&Found<'_>>) -> Result<Stored, Refusal> {
        let number = number(self.pairs);
        let mut headers = Vec::new();
        if self.pairs.checked_rem(self.every).unwrap_or(self.pairs) == 0 {
            self.run.frame(Kind::Key, &[0; 7], &IDENTITIES, 0, &mut [])?;
            headers = Record::plain(Of::Key, number, frames).bytes();
        }
        self.pairs += 1;
        let Some(&Found { status, halvings, sides, types, models, words }) = found else {
            headers.extend(Record::plain(Of::Bad, number, frames).bytes());
            return Ok(Stored { blocks: Vec::new(), headers });
        };
        let (header, bits) = header(&mut self.run, Kind::Inter, types, models)?;
        let blocks = blocks(&self.run, number, words, &vec![belt::UNSORTED; words.len()])?;
        let record = Record {
            of: Of::Pair(status),
            halvings,
            number,
            frames,
            sides,
            samples: words.len() as u16,
            bits: bits as u16,
            blocks: crc32fast::hash(&blocks),
            header,
        };
        headers.extend(record.bytes());
        Ok(Stored { blocks, headers })
    }

    /// How the file of headers ends.
    pub fn end(&self) -> Vec<u8> {
        Record::plain(Of::End, 0, (self.pairs, 0)).bytes()
    }
}

/// The header that a run writes of a frame, and its bits.
fn header(run: &mut Run, kind: Kind, types: &[u8; 7], models: &[StoredModel; 7]) -> Result<(Vec<u8>, usize), Refusal> {
    let mut header = vec![0; HEADER_BYTES];
    let bits = run.frame(kind, types, models, 0, &mut header)?;
    header.truncate(bits.div_ceil(8));
    Ok((header, bits))
}

/// The blocks of some samples, in the form that the run holds.
fn blocks(run: &Run, number: u16, words: &[u32], classes: &[u8]) -> Result<Vec<u8>, Refusal> {
    let mut blocks = vec![0; block_bytes(run, words.len())];
    run.store(number, words, classes, &mut blocks)?;
    Ok(blocks)
}

/// The bytes of so many samples' blocks.
fn block_bytes(run: &Run, samples: usize) -> usize {
    belt::block_bytes(samples, if run.form() == 1 { Form::One } else { Form::Two })
}

/// Why a recording can't be read back.
#[derive(Clone, Debug, PartialEq, Eq)]
pub struct Damaged {
    /// The file and the byte.
    pub place: String,
    /// What is wrong there.
    pub why: Why,
}

/// What is wrong with a recording.
#[derive(Clone, Debug, PartialEq, Eq)]
pub enum Why {
    /// It is cut, damaged, of another kind, or doesn't belong to the other file.
    Bad(String),
    /// The library refuses it.
    Refused(Refusal),
}

impl fmt::Display for Damaged {
    fn fmt(&self, f: &mut fmt::Formatter<'_>) -> fmt::Result {
        match &self.why {
            Why::Bad(what) => write!(f, "{}: {what}", self.place),
            Why::Refused(refusal) => write!(f, "{}: refused, {refusal}", self.place),
        }
    }
}

impl Error for Damaged {}

/// A record as it was read, with its pair's place among the pairs and its models.
pub struct Replayed {
    /// The record.
    pub record: Record,
    /// Its pair, counted from 0; of a key frame, the pair behind it.
    pub pair: u64,
    /// The models that it stores.
    pub models: Models,
}

/// A file that is read from its beginning to its end.
struct Source<R> {
    name: String,
    from: BufReader<R>,
    at: u64,
}

impl<R: Read> Source<R> {
    fn new(name: String, from: R) -> Self {
        Source { name, from: BufReader::new(from), at: 0 }
    }

    fn bad(&self, at: u64, what: impl ToString) -> Damaged {
        Damaged { place: format!("{}, byte {at}", self.name), why: Why::Bad(what.to_string()) }
    }

    fn refused(&self, at: u64, refusal: Refusal) -> Damaged {
        Damaged { place: format!("{}, byte {at}", self.name), why: Why::Refused(refusal) }
    }

    /// The next bytes, all of them.
    fn take(&mut self, count: usize) -> Result<Vec<u8>, Damaged> {
        let mut bytes = Vec::with_capacity(count);
        let read = self.from.by_ref().take(count as u64).read_to_end(&mut bytes);
        read.map_err(|error| self.bad(self.at, error))?;
        self.at += bytes.len() as u64;
        if bytes.len() < count {
            return Err(self.bad(self.at, "it ends here, and more belongs to it: it was cut short"));
        }
        Ok(bytes)
    }

    /// Nothing follows.
    fn ends(&mut self) -> Result<(), Damaged> {
        match self.from.read(&mut [0]) {
            Ok(0) => Ok(()),
            Ok(_) => Err(self.bad(self.at, "it goes on behind its end")),
            Err(error) => Err(self.bad(self.at, error)),
        }
    }
}

/// Reads a recording back. Nothing but the two files is needed, and one record of them at a time is held.
pub struct Player<R> {
    headers: Source<R>,
    blocks: Option<Source<R>>,
    reader: RunReader,
    /// Writes again what was read.
    writer: Run,
    pairs: u64,
}

impl<R: Read> Player<R> {
    /// Begins alike, by the head. The files have their names with them.
    /// [`Damaged`] where it is no such head.
    pub fn begin(headers: (String, R), blocks: Option<(String, R)>) -> Result<Self, Damaged> {
        let mut headers = Source::new(headers.0, headers.1);
        let head = headers.take(HEAD)?;
        if head[..7] != MAGIC[..7] {
            return Err(headers.bad(0, "it is no file of headers, which 'belt track --headers' writes"));
        }
        if head != checked(head[..HEAD - CHECK].to_vec()) {
            return Err(headers.bad(0, "its head is damaged: the check is wrong"));
        }
        if head[7] != MAGIC[7] || head[10..12] != [0, 0] {
            return Err(headers.bad(7, format!("it is of version {}, and 1 is known", head[7])));
        }
        let (flag, form) = (head[8], u32::from(head[9]));
        let reader = RunReader::start(flag, form).map_err(|refusal| headers.refused(8, refusal))?;
        let writer = Run::start(flag, form).map_err(|refusal| headers.refused(8, refusal))?;
        let blocks = blocks.map(|(name, from)| Source::new(name, from));
        Ok(Player { headers, blocks, reader, writer, pairs: 0 })
    }

    /// The next record with what was stored, which was read back; none at the end.
    /// [`Damaged`] at the first byte of the record, or of its blocks, that isn't as it was written.
    pub fn record(&mut self) -> Result<Option<Replayed>, Damaged> {
        let (at, pair) = (self.headers.at, self.pairs);
        let record = self.next_record()?;
        if record.of == Of::End {
            if record.frames != (self.pairs, 0) || record.number != 0 {
                let what = format!("its end tells of {} pairs, and there are {}", record.frames.0, self.pairs);
                return Err(self.headers.bad(at, what));
            }
            self.headers.ends()?;
            self.blocks.as_mut().map_or(Ok(()), Source::ends)?;
            return Ok(None);
        }
        if record.number != number(self.pairs) {
            let what = format!("a record of number {}, where {} follows", record.number, number(self.pairs));
            return Err(self.headers.bad(at, what));
        }
        let kind = match record.of {
            Of::Pair(_) => Kind::Inter,
            _ => Kind::Key,
        };
        let mut models = Models::default();
        if record.of != Of::Bad {
            models = self.reader.read(kind, &record.header, 0).map_err(|refusal| self.headers.refused(at, refusal))?;
            self.again(kind, &record, &models).map_err(|what| self.headers.bad(at, what))?;
        }
        self.samples(&record)?;
        self.pairs += u64::from(record.of != Of::Key);
        Ok(Some(Replayed { record, pair, models }))
    }

    fn next_record(&mut self) -> Result<Record, Damaged> {
        let at = self.headers.at;
        let mut bytes = self.headers.take(FIXED)?;
        let header = usize::from(u16::from_be_bytes([bytes[26], bytes[27]])).div_ceil(8);
        let damaged = "a record that is damaged: its check is wrong";
        if header > HEADER_BYTES {
            return Err(self.headers.bad(at, damaged));
        }
        bytes.extend(self.headers.take(header)?);
        if self.headers.take(CHECK)? != crc32fast::hash(&bytes).to_be_bytes() {
            return Err(self.headers.bad(at, damaged));
        }
        Record::of_bytes(&bytes).map_err(|what| self.headers.bad(at, what))
    }

    /// The models written again are the header that was read.
    fn again(&mut self, kind: Kind, record: &Record, models: &Models) -> Result<(), String> {
        let written = header(&mut self.writer, kind, &models.types, &models.models);
        let (header, bits) = written.map_err(|refusal| refusal.to_string())?;
        let same = header == record.header && bits == usize::from(record.bits) && bits == models.bits;
        let what = || format!("a header of {} bits that its models, written again, don't have", record.bits);
        if same && self.writer.prior() == self.reader.prior() { Ok(()) } else { Err(what()) }
    }

    /// The samples of a record are in the blocks, and stored again they are the same blocks.
    fn samples(&mut self, record: &Record) -> Result<(), Damaged> {
        let Some(source) = &mut self.blocks else { return Ok(()) };
        let (at, count) = (source.at, usize::from(record.samples));
        let bytes = source.take(block_bytes(&self.writer, count))?;
        if count == 0 {
            return Ok(());
        }
        let (mut words, mut classes) = (vec![0; count], vec![0; count]);
        let read = belt::read_both(&bytes, &mut words, &mut classes).map_err(|refusal| source.refused(at, refusal))?;
        let again = blocks(&self.writer, record.number, &words[..read.samples], &classes[..read.samples]);
        let same = read.number == record.number
            && read.samples == count
            && crc32fast::hash(&bytes) == record.blocks
            && again.is_ok_and(|again| again == bytes);
        if same {
            return Ok(());
        }
        let (number, wanted) = (read.number, record.number);
        let what = format!("blocks of frame {number} that aren't those which the headers tell of, of frame {wanted}");
        Err(source.bad(at, what))
    }
}

#[cfg(test)]
mod tests {
    use super::*;

    /// A pair of 48×48 pels that went so far, or one that is bad.
    struct Pair {
        status: Status,
        types: [u8; 7],
        models: [StoredModel; 7],
        words: Vec<u32>,
    }

    fn pair(right: Option<i32>) -> Option<Pair> {
        let right = right?;
        let status = if right == 0 { Status::Still } else { Status::Measured };
        let (mut types, mut models) = ([0; 7], IDENTITIES);
        if right != 0 {
            types[0] = 1;
            models[0].0[1] = right << 16;
        }
        let eighths = (223 + 8 * right) as u32;
        let words = (0..9).map(|i: u32| (i / 3) << 26 | (i % 3) << 20 | 223 << 11 | eighths << 2).collect();
        Some(Pair { status, types, models, words })
    }

    /// A recording of these pairs: blocks and headers.
    fn recorded<'a>(every: u64, pairs: impl IntoIterator<Item = &'a Option<Pair>>) -> (Vec<u8>, Vec<u8>) {
        let mut recorder = Recorder::begin(every).unwrap();
        let (mut blocks, mut headers) = (Vec::new(), recorder.head());
        for pair in pairs {
            let found = pair.as_ref().map(|Pair { status, types, models, words }| Found {
                status: *status,
                halvings: 0,
                sides: (48, 48),
                types,
                models,
                words,
            });
            let stored = recorder.pair((3, 5), found.as_ref()).unwrap();
            blocks.extend(stored.blocks);
            headers.extend(stored.headers);
        }
        headers.extend(recorder.end());
        (blocks, headers)
    }

    fn replayed(blocks: &[u8], headers: &[u8]) -> Result<Vec<Replayed>, String> {
        let mut player = Player::begin(("h".into(), headers), Some(("b".into(), blocks))).map_err(|f| f.to_string())?;
        let mut records = Vec::new();
        while let Some(record) = player.record().map_err(|failure| failure.to_string())? {
            records.push(record);
        }
        Ok(records)
    }

    #[test]
    fn the_bytes_are_those_of_the_table() {
        let moved = pair(Some(4));
        let (blocks, headers) = recorded(0, [&moved]);
        assert_eq!(headers[..HEAD - CHECK], *b"BELTRUN\x01\x01\x02\0\0");
        let record = &headers[HEAD + FIXED + CHECK..];
        assert_eq!(record[..4], [1, 0, 0, 1]);
        assert_eq!(record[4..20], [0, 0, 0, 0, 0, 0, 0, 3, 0, 0, 0, 0, 0, 0, 0, 5]);
        assert_eq!(record[20..26], [0, 48, 0, 48, 0, 9]);
        assert_eq!(record[28..32], crc32fast::hash(&blocks).to_be_bytes());
        assert_eq!(checked(b"123456789".to_vec())[9..], [0xCB, 0xF4, 0x39, 0x26]);
    }

    #[test]
    fn numbers_begin_again_behind_the_last() {
        assert_eq!([0, 1, 65_534, 65_535, 65_536].map(number), [1, 2, 65_535, 1, 2]);
        let (moved, bad) = (pair(Some(4)), pair(None));
        let at = |i: u64| if [0, 65_534, 65_535].contains(&i) { &moved } else { &bad };
        let (blocks, headers) = recorded(0, (0..65_537).map(at));
        let records = replayed(&blocks, &headers).unwrap();
        assert_eq!(records.len(), 65_538);
        let numbers = |i: usize| (records[i].record.of, records[i].pair, records[i].record.number);
        assert_eq!(numbers(65_535), (Of::Pair(moved.as_ref().unwrap().status), 65_534, 65_535));
        assert_eq!(numbers(65_536).2, 1);
        assert_eq!(numbers(65_537), (Of::Bad, 65_536, 2));
        let frames = blocks.chunks(512).map(|block| belt::judge_block(block).unwrap().frame);
        assert_eq!(frames.collect::<Vec<_>>(), [1, 65_535, 1]);
    }

    #[test]
    fn a_key_frame_sets_the_prior_back() {
        let moved = pair(Some(4));
        let bytes = |every| -> Vec<Vec<u8>> {
            let (blocks, headers) = recorded(every, [&moved; 7]);
            let records = replayed(&blocks, &headers).unwrap();
            let models = &moved.as_ref().unwrap().models;
            assert!(records.iter().all(|read| read.record.of == Of::Key || read.models.models == *models));
            records.into_iter().map(|read| read.record.header).collect()
        };
        let [first, next] = [1, 2].map(|i| bytes(0)[i].clone());
        assert!(first != next && !next.is_empty());
        let (key, first, next) = (&vec![], &first, &next);
        assert_eq!(bytes(0).iter().collect::<Vec<_>>(), [key, first, next, next, next, next, next, next]);
        assert_eq!(bytes(3).iter().collect::<Vec<_>>(), [key, first, next, next, key, first, next, next, key, first]);
        assert_eq!(bytes(1).chunks(2).filter(|two| two[0].is_empty() && two[1] == *first).count(), 7);
    }

    #[test]
    fn every_byte_that_is_flipped_or_missing_is_refused() {
        let (blocks, headers) = recorded(2, [&pair(Some(4)), &pair(None), &pair(Some(0)), &pair(Some(2))]);
        assert_eq!(replayed(&blocks, &headers).unwrap().len(), 6);
        for at in 0..headers.len() {
            for bit in 0..8 {
                let mut damaged = headers.clone();
                damaged[at] ^= 1 << bit;
                let said = replayed(&blocks, &damaged).err().unwrap_or_else(|| panic!("byte {at}, bit {bit}"));
                assert!(said.starts_with("h, byte "), "{said}");
            }
            let said = replayed(&blocks, &headers[..at]).err().unwrap();
            assert_eq!(said, format!("h, byte {at}: it ends here, and more belongs to it: it was cut short"));
        }
        for at in 0..blocks.len() {
            let mut damaged = blocks.clone();
            damaged[at] ^= 1 << (at % 8);
            let said = replayed(&damaged, &headers).err().unwrap_or_else(|| panic!("byte {at} of the blocks"));
            assert!(said.starts_with(&format!("b, byte {}: ", at / 512 * 512)), "{said}");
            let said = replayed(&blocks[..at], &headers).err().unwrap();
            assert!(said.starts_with(&format!("b, byte {at}: it ends here")), "{said}");
        }
        let more = |bytes: &[u8]| [bytes, &[0]].concat();
        let said = |blocks: &[u8], headers: &[u8]| replayed(blocks, headers).err().unwrap();
        assert!(said(&blocks, &more(&headers)).ends_with("it goes on behind its end"));
        assert!(said(&more(&blocks), &headers).starts_with(&format!("b, byte {}: it goes on", blocks.len())));
    }

    #[test]
    fn records_that_are_right_alone_are_held_together() {
        let (moved, still, bad) = (pair(Some(4)), pair(Some(0)), pair(None));
        let (blocks, headers) = recorded(0, [&moved, &bad, &still]);
        let said = |blocks: &[u8], headers: &[u8]| replayed(blocks, headers).err().unwrap();
        // a pair that is missing
        let key = FIXED + CHECK;
        let bad_at = HEAD + key + FIXED + replayed(&blocks, &headers).unwrap()[1].record.header.len() + CHECK;
        let without = [&headers[..bad_at], &headers[bad_at + key..]].concat();
        assert_eq!(said(&blocks, &without), format!("h, byte {bad_at}: a record of number 3, where 2 follows"));
        // an end that tells of other pairs
        let short = [&headers[..bad_at], &headers[headers.len() - key..]].concat();
        assert_eq!(said(&blocks, &short), format!("h, byte {bad_at}: its end tells of 3 pairs, and there are 1"));
        // the blocks of another recording, right in themselves
        let (others, _) = recorded(0, [&still, &bad, &moved]);
        let what = "b, byte 0: blocks of frame 1 that aren't those which the headers tell of, of frame 1";
        assert_eq!(said(&others, &headers), what);
        let exchanged = [&blocks[512..], &blocks[..512]].concat();
        assert!(said(&exchanged, &headers).starts_with("b, byte 0: blocks of frame 3 "));
        // kinds and versions of another time
        let again = |at: usize, byte: u8, end: usize, begin: usize| {
            let mut changed = headers.clone();
            changed[at] = byte;
            let check = crc32fast::hash(&changed[begin..end]).to_be_bytes();
            changed[end..end + CHECK].copy_from_slice(&check);
            said(&blocks, &changed)
        };
        assert_eq!(again(7, 2, HEAD - CHECK, 0), "h, byte 7: it is of version 2, and 1 is known");
        assert!(again(9, 3, HEAD - CHECK, 0).starts_with("h, byte 8: refused, 4: "));
        assert_eq!(again(HEAD, 8, HEAD + FIXED, HEAD), "h, byte 16: a record of kind 8, which isn't known");
        assert_eq!(again(HEAD + 24, 1, HEAD + FIXED, HEAD), "h, byte 16: a record that contradicts itself");
    }
}
