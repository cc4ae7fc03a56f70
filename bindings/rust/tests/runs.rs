//! Runs of frames: the values of docs/RULES.md, every row, and that a reader begun alike recovers what was accepted.

mod frames;

use belt::Refusal::{self, *};
use belt::{
    BLOCK_BYTES, FILM, Form, IDENTITIES, Kind, Length, METAL, Report, Run, RunReader, Settings, StoredModel, TO_FORM_2,
    TO_HIGH_PRECISION, TO_LOW_PRECISION, Task,
};
use frames::{Handed, guarded, moved, noisy_plane};

/// Seven models: one of these numbers at reference 1, the rest identity.
fn moving(row: i32, column: i32) -> ([u8; 7], [StoredModel; 7]) {
    let mut models = IDENTITIES;
    models[0] = StoredModel([row, column, 65536, 0, 0, 65536]);
    ([1, 0, 0, 0, 0, 0, 0], models)
}

/// A run and a reader begun alike.
struct Pair {
    run: Run,
    reader: RunReader,
}

impl Pair {
    fn start(flag: u8, form: u32) -> Self {
        Self { run: Run::start(flag, form).unwrap(), reader: RunReader::start(flag, form).unwrap() }
    }

    fn same(&self) {
        assert_eq!(self.run.prior(), self.reader.prior());
        assert_eq!((self.run.flag(), self.run.form()), (self.reader.flag(), self.reader.form()));
    }

    fn switch(&mut self, code: u8) -> Result<(), Refusal> {
        let before = self.run;
        let switched = self.run.switch(code);
        match switched {
            Ok(()) => self.reader.switch(code).unwrap(),
            Err(_) => assert_eq!(self.run, before),
        }
        self.same();
        switched
    }

    /// Writes into six bytes of ones; the reader gives the models of what is accepted.
    fn frame(
        &mut self,
        kind: Kind,
        (types, models): ([u8; 7], [StoredModel; 7]),
        start: usize,
    ) -> Result<(usize, [u8; 6]), Refusal> {
        let (before, mut header) = (self.run, [0xFF; 6]);
        let written = self.run.frame(kind, &types, &models, start, &mut header);
        match written {
            Ok(bits) => {
                let read = self.reader.read(kind, &header, start).unwrap();
                assert_eq!((read.types, read.models, read.bits), (types, models, bits));
                assert_eq!(self.run.prior(), &models);
            }
            Err(_) => assert_eq!((self.run, header), (before, [0xFF; 6])),
        }
        self.same();
        written.map(|bits| (bits, header))
    }
}

#[test]
fn a_recording() {
    let mut pair = Pair::start(1, 1);
    let (p, q) = (moving(8192, -8192), moving(16384, -16384));
    let mut turned = ([0, 2, 0, 0, 0, 0, 0], IDENTITIES);
    turned.1[1] = StoredModel([1024, 0, 65538, 2, -2, 65538]);
    let bytes = |first: u32| Ok([(first >> 16) as u8, (first >> 8) as u8, first as u8, 0xFF, 0xFF, 0xFF]);
    let header = |written: Result<(usize, [u8; 6]), Refusal>| written.map(|(_, bytes)| bytes);
    assert_eq!(pair.frame(Kind::Inter, p, 0), Ok((17, [0xA4, 0x20, 0x00, 0xFF, 0xFF, 0xFF])));
    assert_eq!(header(pair.frame(Kind::Inter, p, 0)), bytes(0xA00000));
    assert_eq!(pair.frame(Kind::Inter, turned, 0), Ok((24, [0x64, 0x44, 0x00, 0xFF, 0xFF, 0xFF])));
    assert_eq!(header(pair.frame(Kind::Inter, p, 0)), bytes(0xA42000));
    pair.switch(TO_LOW_PRECISION).unwrap();
    assert_eq!(pair.frame(Kind::Inter, moving(24576, -8192), 0), Err(OffGrid));
    assert_eq!(header(pair.frame(Kind::Inter, q, 0)), bytes(0xA40000));
    assert_eq!(pair.switch(3), Err(NoSuchCode));
    assert_eq!((pair.run.flag(), pair.run.form()), (0, 1));
    pair.switch(TO_FORM_2).unwrap();
    assert_eq!((pair.run.flag(), pair.run.form()), (0, 2));
    assert_eq!(pair.frame(Kind::Key, ([0; 7], IDENTITIES), 2), Ok((0, [0xFF; 6])));
    assert_eq!(pair.run.prior(), &IDENTITIES);
    assert_eq!(header(pair.frame(Kind::Inter, q, 0)), bytes(0xA42000));
    assert_eq!(header(pair.frame(Kind::Inter, q, 0)), bytes(0xA00000));
    pair.switch(TO_FORM_2).unwrap();
    pair.switch(TO_HIGH_PRECISION).unwrap();
    assert_eq!((pair.run.flag(), pair.run.form()), (1, 2));
}

#[test]
fn a_bad_start() {
    for (flag, form) in [(2, 1), (255, 2), (1, 0), (0, 3), (1, u32::MAX)] {
        assert_eq!(Run::start(flag, form), Err(NoSuchCode));
        assert_eq!(RunReader::start(flag, form), Err(NoSuchCode));
    }
}

/// One number of the prior beyond its range.
fn out(flag: u8, form: u32) -> ([StoredModel; 7], u8, u32) {
    let mut prior = IDENTITIES;
    prior[0].0[0] = 4_194_305;
    (prior, flag, form)
}

#[test]
fn a_bad_run_is_refused_and_comes_back() {
    let identities = ([0; 7], IDENTITIES);
    for ((prior, flag, form), row) in [(out(1, 1), PriorOut), (out(2, 1), NoSuchCode), ((IDENTITIES, 1, 0), NoSuchCode)]
    {
        let bad = Run::of_parts(prior, flag, form);
        let mut run = bad;
        let mut frame = |kind, (types, models): ([u8; 7], [StoredModel; 7]), start| {
            run.frame(kind, &types, &models, start, &mut [0xFF; 6])
        };
        assert_eq!(frame(Kind::Key, identities, 0), Err(row));
        assert_eq!(frame(Kind::Inter, identities, 0), Err(row));
        // a bad code is judged before the start and the models, a prior behind both
        let first = |other| if row == NoSuchCode { NoSuchCode } else { other };
        assert_eq!(frame(Kind::Key, moving(8192, 0), 0), Err(first(OffGrid)));
        assert_eq!(frame(Kind::Inter, moving(1, 0), 0), Err(first(OffGrid)));
        assert_eq!(frame(Kind::Key, moving(8192, 0), 9), Err(first(StartOver)));
        assert_eq!(run.switch(1), Err(row));
        assert_eq!(run.switch(3), Err(NoSuchCode));
        let mut block = [0; BLOCK_BYTES];
        assert_eq!(run.store(5, &[0x0006_FB7C], &[0], &mut block), Err(row));
        assert_eq!(run.store(0, &[0x0006_FB7D], &[FILM], &mut []), Err(row));
        assert_eq!(run.store(5, &[0x0006_FB7C], &[5], &mut []), Err(NoSuchCode));
        assert_eq!(block, [0; BLOCK_BYTES]);
        let handed = Handed::new(noisy_plane(48, 32), noisy_plane(48, 32), 48, 32, 1);
        let mut buffers = guarded(48, 32);
        assert_eq!(run.job(&handed.task(), &mut buffers.lend()), Err(row));
        assert_eq!(buffers, guarded(48, 32));
        assert_eq!(run, bad, "the run comes back as it was");
        let mut reader = RunReader::of_parts(prior, flag, form);
        assert_eq!(reader.read(Kind::Key, &[], 99), Err(row));
        assert_eq!(reader.read(Kind::Inter, &[], 0), Err(row));
        assert_eq!(reader, RunReader::of_parts(prior, flag, form));
    }
}

#[test]
fn rows_of_a_frame() {
    let mut run = Run::start(1, 2).unwrap();
    let before = run;
    let (types, models) = moving(8192, -8192);
    let length = |name, given, wanted| Length { name, given, wanted };
    let mut four = types;
    four[6] = 4;
    let mut frame = |kind, types: &[u8], models: &[StoredModel], start, room| {
        run.frame(kind, types, models, start, &mut [0; 9][..room])
    };
    assert_eq!(frame(Kind::Inter, &types[..6], &models, 8, 0), Err(WrongLength(length("types", 6, 7))));
    assert_eq!(frame(Kind::Key, &types, &models[..6], 8, 0), Err(WrongLength(length("models", 6, 7))));
    assert_eq!(frame(Kind::Inter, &four, &models, 8, 0), Err(NoSuchCode));
    assert_eq!(frame(Kind::Inter, &types, &moving(1, 0).1, 8, 0), Err(StartOver));
    assert_eq!(frame(Kind::Inter, &types, &moving(1, 0).1, 7, 0), Err(OffGrid));
    assert_eq!(frame(Kind::Key, &types, &models, 7, 0), Err(OffGrid));
    assert_eq!(frame(Kind::Inter, &types, &models, 7, 2), Err(TooShort(length("header", 2, 3))));
    assert_eq!(run, before);
    assert_eq!(RunReader::start(1, 2).unwrap().read(Kind::Inter, &[0xA4, 0x20], 0), Err(EndsFirst));
}

#[test]
fn rows_of_a_store() {
    let mut run = Run::start(1, 1).unwrap();
    let length = |name, given, wanted| Length { name, given, wanted };
    let store = |run: &Run, frame, word, classes: &[u8], room: usize| {
        let mut blocks = vec![0xA5; room];
        let stored = run.store(frame, &[word], classes, &mut blocks);
        assert!(stored.is_ok() || blocks == vec![0xA5; room]);
        stored.map(|_| blocks)
    };
    let word = 0x0006_FB7C;
    assert_eq!(run.store(5, &vec![word; 4097], &[5], &mut []), Err(TooLarge));
    assert_eq!(store(&run, 5, word, &[], 0), Err(WrongLength(length("classes", 0, 1))));
    assert_eq!(store(&run, 5, word | 1, &[5], 0), Err(NoSuchCode));
    assert_eq!(store(&run, 5, word | 1, &[FILM], 0), Err(NotRising));
    assert_eq!(store(&run, 0, word, &[FILM], 0), Err(NotHeld));
    assert_eq!(store(&run, 0, word, &[METAL], 511), Err(TooShort(length("blocks", 511, 512))));
    assert_eq!(store(&run, 0, word, &[METAL], 512), Err(ShutterClosed));
    let one = store(&run, 5, word, &[METAL], 512).unwrap();
    assert_eq!((one[2], &one[8..13], &one[508..]), (1, &[0, 6, 0xFB, 0x7F, 0][..], &[0, 0x0C, 0xFC, 0x81][..]));
    run.switch(TO_FORM_2).unwrap();
    let two = store(&run, 5, word, &[FILM], 512).unwrap();
    assert_eq!((two[2], &two[8..13], &two[508..]), (2, &[0, 6, 0xFB, 0x7C, 4][..], &[4, 0x0C, 0xFD, 0x7E][..]));
    // 101 samples are one block of form 1 and two of form 2
    let words: Vec<u32> = (0..101).map(|place| place << 20 | word).collect();
    let mut blocks = [0; 1024];
    assert_eq!(run.store(5, &words, &[0; 101], &mut blocks), Ok(2));
    assert_eq!(run.store(5, &words, &[0; 101], &mut blocks[..512]), Err(TooShort(length("blocks", 512, 1024))));
    assert_eq!(Run::start(1, 1).unwrap().store(5, &words, &[0; 101], &mut blocks[..512]), Ok(1));
}

/// A bowl seen two rows further down and three columns further left, whose type is elected.
fn bowl_job(classes: u8) -> Handed {
    let pel = |r: i32, c: i32| {
        let (r, c) = (r.clamp(0, 63), c.clamp(0, 63));
        ((r - 31).pow(2) + 2 * (c - 29).pow(2)) as u16
    };
    let plane = |dy: i32, dx: i32| (0..64 * 64).map(|i| pel(i / 64 + dy, i % 64 + dx)).collect::<Vec<_>>();
    let mut handed = Handed::new(plane(2, -3), plane(0, 0), 64, 64, 1);
    handed.settings = Settings::elect(5);
    handed.settings.flag = 2;
    handed.classes = (0..16).map(|q| q % classes).collect();
    handed
}

/// Runs a job in the run and holds it against the job outside with the run's prior and flag, and against what reads back.
fn job(pair: &mut Pair, handed: &Handed) -> Result<Report, Refusal> {
    let (before, mut left) = (pair.run, guarded(handed.width, handed.height));
    let report = match pair.run.job(&Task { prior: &[], ..handed.task() }, &mut left.lend()) {
        Ok(report) => report,
        Err(row) => {
            assert_eq!(pair.run, before);
            return Err(row);
        }
    };
    let mut plain = handed.clone();
    (plain.prior, plain.settings.flag) = (before.prior().to_vec(), before.flag());
    let mut outside = guarded(handed.width, handed.height);
    assert_eq!(belt::job(&plain.task(), &mut outside.lend()), Ok(report));
    assert_eq!(
        (&left.header, &left.words, &left.input_half, &left.ref_half),
        (&outside.header, &outside.words, &outside.input_half, &outside.ref_half)
    );
    let (samples, form) = (report.samples, if before.form() == 1 { Form::One } else { Form::Two });
    let (own, behind) = left.blocks.split_at(belt::block_bytes(samples, form));
    assert!(behind.iter().all(|&byte| byte == 0xA5));
    let (mut words, mut classes) = (vec![0; samples], vec![0; samples]);
    let read = belt::read_both(own, &mut words, &mut classes).unwrap();
    assert_eq!((read.number, read.samples), (handed.settings.frame, samples));
    assert_eq!((&words[..], &classes), (&left.words[..samples], &handed.classes));
    assert!(own.chunks(BLOCK_BYTES).all(|block| u32::from(block[2]) == before.form()));
    let models = pair.reader.read(Kind::Inter, &left.header, handed.settings.start).unwrap();
    assert_eq!((models.types, models.models, models.bits), (report.types, report.models, report.bits));
    assert_eq!(pair.run.prior(), &report.models);
    pair.same();
    let checks = own.chunks(BLOCK_BYTES).map(|block| block[508..].to_vec()).collect::<Vec<_>>();
    if (handed.width, handed.settings.frame) == (64, 5) {
        let wanted = if form == Form::One { [0x62, 0x0C, 0xAA, 0xE9] } else { [0x5B, 0xAF, 0xD4, 0x27] };
        assert_eq!(checks, [wanted]);
    }
    Ok(report)
}

#[test]
fn bowls_in_both_forms() {
    let mut pair = Pair::start(1, 1);
    // class 4 in form 1, before any buffer is judged, and whether it is named or not
    let film = bowl_job(5);
    let before = pair.run;
    let mut none = belt::Buffers::new(0, 0);
    assert_eq!(pair.run.job(&film.task(), &mut none.lend()), Err(NotHeld));
    let mut unnamed = film.clone();
    (unnamed.settings.set, unnamed.settings.frame) = (belt::ClassSet::of(&[METAL]), 0);
    assert_eq!(job(&mut pair, &unnamed), Err(NotHeld));
    assert_eq!(pair.run, before);
    let report = job(&mut pair, &bowl_job(4)).unwrap();
    assert_eq!((report.types[0], report.models[0].0[..2].to_vec()), (1, vec![131_072, -196_608]));
    pair.switch(TO_FORM_2).unwrap();
    let again = job(&mut pair, &film).unwrap();
    assert_eq!(again.models, report.models);
    assert!(again.bits < report.bits, "the prior is the models before");
    let mut closed = film.clone();
    closed.settings.frame = 0;
    assert_eq!(job(&mut pair, &closed), Err(ShutterClosed));
    assert_eq!(pair.run.prior(), &again.models);
}

#[test]
fn two_blocks_of_form_2_are_one_of_form_1() {
    let reference = noisy_plane(176, 160);
    let mut handed = Handed::new(moved(&reference, 176, 160, 3, -5), reference, 176, 160, 2);
    handed.classes = vec![METAL; 110];
    let mut pair = Pair::start(0, 1);
    job(&mut pair, &handed).unwrap();
    let mut one_block = guarded(176, 160);
    one_block.blocks.truncate(BLOCK_BYTES);
    let mut run = pair.run;
    assert!(run.job(&handed.task(), &mut one_block.lend()).is_ok());
    pair.switch(TO_FORM_2).unwrap();
    let mut run = pair.run;
    let short = TooShort(Length { name: "blocks", given: 512, wanted: 1024 });
    assert_eq!(run.job(&handed.task(), &mut one_block.lend()), Err(short));
    job(&mut pair, &handed).unwrap();
}

#[test]
fn a_singular_job_moves_nothing() {
    let mut handed = Handed::new(vec![7; 256], vec![7; 256], 16, 16, 2);
    handed.classes = vec![0];
    let mut pair = Pair::start(1, 1);
    assert_eq!(job(&mut pair, &handed), Err(Singular));
    handed.settings.gm_type = 1;
    assert!(job(&mut pair, &handed).is_ok());
}

/// Numbers from one seed.
struct Random(u64);

impl Random {
    fn below(&mut self, count: u64) -> u64 {
        self.0 = self.0.wrapping_mul(6_364_136_223_846_793_005).wrapping_add(1_442_695_040_888_963_407);
        (self.0 >> 33) % count
    }
}

/// Models of random types; at times a number off the grid of low precision.
fn random_models(random: &mut Random) -> ([u8; 7], [StoredModel; 7]) {
    let types = std::array::from_fn(|_| random.below(4) as u8);
    let models = types.map(|kind: u8| {
        let mut model = StoredModel::IDENTITY;
        let fine = random.below(8) == 0;
        let mut steps = |step: i64| ((random.below(401) as i64 - 200) * step) as i32;
        if kind > 0 {
            (model.0[0], model.0[1]) = (steps(if fine { 8192 } else { 16384 }), steps(16384));
        }
        if kind > 1 {
            (model.0[2], model.0[3]) = (65536 + steps(2), steps(2));
            (model.0[4], model.0[5]) = (-model.0[3], model.0[2]);
        }
        if kind > 2 {
            (model.0[4], model.0[5]) = (steps(2), 65536 + steps(2));
        }
        model
    });
    (types, models)
}

#[test]
fn random_events_are_recovered() {
    let mut random = Random(13);
    let mut rows = [0; 3];
    for _ in 0..300 {
        let mut pair = Pair::start(random.below(2) as u8, 1 + random.below(2) as u32);
        for _ in 0..random.below(20) {
            let row = match random.below(8) {
                0 => pair.switch(random.below(4) as u8).err(),
                1 => pair.frame(Kind::Key, ([0; 7], IDENTITIES), random.below(9) as usize).err(),
                2 => pair.frame(Kind::Key, random_models(&mut random), 0).err(),
                _ => {
                    let (models, start) = (random_models(&mut random), random.below(9) as usize);
                    let (before, mut header) = (pair.run, [0x5A; 125]);
                    match pair.run.frame(Kind::Inter, &models.0, &models.1, start, &mut header) {
                        Ok(bits) => {
                            let read = pair.reader.read(Kind::Inter, &header, start).unwrap();
                            assert_eq!((read.types, read.models, read.bits), (models.0, models.1, bits));
                            None
                        }
                        Err(row) => {
                            assert_eq!((pair.run, header), (before, [0x5A; 125]));
                            Some(row)
                        }
                    }
                }
            };
            pair.same();
            match row {
                None => rows[0] += 1,
                Some(OffGrid) => rows[1] += 1,
                Some(_) => rows[2] += 1,
            }
        }
    }
    assert!(rows.iter().all(|&count| count > 100), "{rows:?}");
}
