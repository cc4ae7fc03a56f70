//! The lists for `worked_run`: runs of events by docs/RULES.md, 'A run of frames', of which headers, searches, fits and
//! elections are the Rust's. The arguments are the two files to write: runs worked by hand, whose values are held to those
//! written here, and runs of random events.
//!
//! A count, then for each run: 1 where it begins by a start, with flag, form and refusal, or 0 where it is handed in; its
//! 42 numbers, flag and form; how many events follow. Each event is its kind, what is asked and answered, and how the run
//! moves: 0 not at all, 1 to a flag, 2 to a form, 3 to 42 numbers of a prior.
//!
//! | kind | asked | answered |
//! |---|---|---|
//! | 1 switch | code | refusal |
//! | 2 frame | 1 for a key frame, counts of types and numbers, these, start, bytes lent | refusal, bits, bytes |
//! | 3 read | 1 for a key frame, bytes, position | refusal, bits, 7 types, 42 numbers |
//! | 4 store | frame number, counts of words listed and handed, words, classes, bytes lent | refusal, blocks, bytes |
//! | 5 job | planes, settings, lists, room | report, blocks, header, sums of half planes, words |
//!
//! Types, classes and other bytes stand as they are behind their count; a lent byte is `FILL` before. The planes of a job
//! are none (0), a practice belt of a seed, dy and dx (1), or listed behind their
//! number, the reference first (2).

use oracle::blocks::{self, BLOCK};
use oracle::list::{self, Lcg, List};
use oracle::run::{self, Run};
use oracle::{Elected, IDENTITY, Models, TOO_FEW, practice};
use std::{env, io};

const SEED: u32 = 13;
const RUNS: u32 = 160;
/// What every lent byte holds.
const FILL: u8 = 255;
/// The replay's buffers.
const HALF_PELS: usize = 7100;
const WORDS: usize = 112;
const BLOCK_BYTES: usize = 1100;
const HEADER_BYTES: usize = 130;

const LOW: u8 = 0;
const HIGH: u8 = 1;
const ALL: u8 = 0b11111;

/// Rows of a job that a run's other calls don't have.
const NO_SUCH_SLOT: u32 = 5;
const NO_CLASS: u32 = 19;

/// How an input plane is seen of a bowl.
type Place = fn(i32, i32) -> (i32, i32);

#[derive(Clone, Copy)]
enum Planes {
    None,
    Practised { seed: u32, dy: i32, dx: i32 },
    Bowl(Place),
}

#[derive(Clone)]
struct Job {
    planes: Planes,
    width: usize,
    height: usize,
    frame: u16,
    kind: u8,
    reference: u8,
    /// Not looked at in a run.
    flag: u8,
    trim: u8,
    elect: u8,
    set: u8,
    start: usize,
    input_pels: usize,
    ref_pels: usize,
    classes: Vec<u8>,
    types: Vec<u8>,
    numbers: Vec<i32>,
    /// Half planes, words, blocks and header.
    rooms: [usize; 5],
}

impl Job {
    /// All other models at the identity, the classes below `classes` in turn.
    fn plain(planes: Planes, width: usize, height: usize, classes: u8) -> Self {
        let (pels, samples) = (width * height, oracle::sample_count(width, height));
        Self {
            planes,
            width,
            height,
            frame: 5,
            kind: 1,
            reference: 1,
            flag: 2,
            trim: 0,
            elect: 0,
            set: ALL,
            start: 0,
            input_pels: pels,
            ref_pels: pels,
            classes: (0..samples).map(|i| (i % usize::from(classes)) as u8).collect(),
            types: vec![0; 6],
            numbers: [IDENTITY; 6].concat(),
            rooms: [HALF_PELS, HALF_PELS, WORDS, BLOCK_BYTES, HEADER_BYTES],
        }
    }

    /// Input and reference.
    fn pels(&self) -> (Vec<u16>, Vec<u16>) {
        match self.planes {
            Planes::None => (vec![0; self.input_pels], vec![0; self.ref_pels]),
            Planes::Practised { seed, dy, dx } => practice::planes(seed, self.width, self.height, dy, dx),
            Planes::Bowl(place) => {
                (list::bowl(self.width, self.height, place), list::bowl(self.width, self.height, |r, c| (r, c)))
            }
        }
    }

    fn samples(&self) -> usize {
        oracle::sample_count(self.width, self.height)
    }

    fn named(&self) -> usize {
        self.classes.iter().filter(|&&class| self.set >> class & 1 == 1).count()
    }

    /// The row that refuses it before its search.
    fn judged(&self, run: &Run) -> Result<(), u32> {
        let (samples, pels) = (self.samples(), self.width * self.height);
        let half = if samples == 0 { 0 } else { (self.width / 2) * (self.height / 2) };
        if self.width > 1024 || self.height > 1024 {
            return Err(run::TOO_LARGE);
        }
        let lists = [
            (self.input_pels, pels),
            (self.ref_pels, pels),
            (self.classes.len(), samples),
            (self.types.len(), 6),
            (self.numbers.len(), 36),
        ];
        if lists.iter().any(|(given, wanted)| given != wanted) {
            return Err(run::WRONG_LENGTH);
        }
        let over = self.classes.iter().any(|&class| class > blocks::LAST_CLASS) || self.types.iter().any(|&t| t > 3);
        let asked = self.elect == 0 && (!(1..=3).contains(&self.kind) || self.trim > 1);
        if over || asked || self.elect > 1 || self.set > ALL || run.judged() == Err(run::NO_SUCH_CODE) {
            return Err(run::NO_SUCH_CODE);
        }
        let models = self.types.iter().zip(self.numbers.chunks(6));
        let off_grid = |(&kind, model): (&u8, &[i32])| {
            run::off_grid(kind, run.flag == HIGH, &std::array::from_fn(|slot| model[slot]))
        };
        let rooms = [half, half, samples, BLOCK * run.form_held().blocks_of(samples), 125];
        let trims = self.trim == 1 && self.elect == 0;
        match () {
            () if self.set == 0 => Err(NO_CLASS),
            () if !(1..=7).contains(&self.reference) => Err(NO_SUCH_SLOT),
            () if self.start > 7 => Err(run::START_OVER),
            () if models.into_iter().any(off_grid) => Err(run::OFF_GRID),
            () if !run.prior_is_in_range() => Err(run::PRIOR_OUT),
            () if !run.holds(&self.classes) => Err(run::NOT_HELD),
            () if self.rooms.iter().zip(rooms).any(|(&given, wanted)| given < wanted) => Err(run::TOO_SHORT),
            () if trims && self.named() < oracle::least_samples(self.kind) => Err(TOO_FEW),
            () if self.frame == blocks::CLOSED => Err(blocks::SHUTTER_CLOSED),
            () => Ok(()),
        }
    }

    /// Its own model of the words that are named, or the row that refuses it.
    fn own(&self, words: &[u32], high: bool) -> Result<Elected, u32> {
        let named = words.iter().zip(&self.classes).filter(|&(_, class)| self.set >> class & 1 == 1);
        let samples: Vec<[f64; 4]> = named.map(|(&word, _)| oracle::sample_of(word)).collect();
        match self.elect {
            1 => oracle::elect_or_row(high, &samples),
            _ => oracle::own_model(self.kind, high, self.trim == 1, &samples),
        }
    }
}

enum Event {
    Switch(u8),
    Frame { intra: bool, types: Vec<u8>, numbers: Vec<i32>, start: usize, room: usize },
    Read { intra: bool, bytes: Vec<u8>, at: usize },
    Store { frame: u16, words: Vec<u32>, handed: usize, classes: Vec<u8>, room: usize },
    Job(Job),
}

fn main() -> io::Result<()> {
    let path = |n| env::args().nth(n).expect("the arguments are the files to write");
    let mut list = List::default();
    worked(&mut list);
    list.write(path(1))?;

    let mut lcg = Lcg(SEED);
    let mut list = List::default();
    list.push(RUNS);
    (0..RUNS).for_each(|_| random_run(&mut list, &mut lcg));
    list.write(path(2))
}

// ---- the list

/// A run that begins by a start.
fn push_start(list: &mut List, flag: u8, form: u32) -> Run {
    let started = Run::start(flag, form);
    for word in [1, u32::from(flag), form, started.err().unwrap_or(0)] {
        list.push(word);
    }
    let run = started.unwrap_or(Run::NONE);
    push_run(list, &run);
    run
}

/// A run that is handed in.
fn push_handed(list: &mut List, run: Run) -> Run {
    list.push(0);
    push_run(list, &run);
    run
}

fn push_run(list: &mut List, run: &Run) {
    push_numbers(list, &run.prior.concat());
    list.push(u32::from(run.flag));
    list.push(run.form);
}

fn push_numbers(list: &mut List, numbers: &[i32]) {
    numbers.iter().for_each(|&number| list.push_signed(number));
}

/// Bytes behind their count.
fn push_counted(list: &mut List, bytes: &[u8]) {
    list.push(bytes.len() as u32);
    list.push_raw(bytes);
}

/// What an event is asked and answers, and how the run moves: the refusal, and the bytes of a header or of blocks.
fn push_event(list: &mut List, run: &mut Run, event: &Event) -> (u32, Vec<u8>) {
    let before = *run;
    let (refusal, left) = match event {
        Event::Switch(code) => {
            list.push(1);
            list.push(u32::from(*code));
            let refusal = run.switch(*code).err().unwrap_or(0);
            list.push(refusal);
            (refusal, Vec::new())
        }
        Event::Frame { intra, types, numbers, start, room } => {
            list.push(2);
            push_frame(list, run, *intra, types, numbers, *start, *room)
        }
        Event::Read { intra, bytes, at } => {
            list.push(3);
            // a reader of the same run, which goes no further
            (push_read(list, *run, *intra, bytes, *at), Vec::new())
        }
        Event::Store { frame, words, handed, classes, room } => {
            list.push(4);
            push_store(list, run, *frame, words, *handed, classes, *room)
        }
        Event::Job(job) => {
            list.push(5);
            push_job(list, run, job)
        }
    };
    match () {
        () if run.prior != before.prior => {
            list.push(3);
            push_numbers(list, &run.prior.concat());
        }
        () if run.form != before.form => [2, run.form].into_iter().for_each(|word| list.push(word)),
        () if run.flag != before.flag => [1, u32::from(run.flag)].into_iter().for_each(|word| list.push(word)),
        () => list.push(0),
    }
    (refusal, left)
}

fn push_frame(
    list: &mut List,
    run: &mut Run,
    intra: bool,
    types: &[u8],
    numbers: &[i32],
    start: usize,
    room: usize,
) -> (u32, Vec<u8>) {
    list.push(u32::from(intra));
    push_counted(list, types);
    list.push(numbers.len() as u32);
    push_numbers(list, numbers);
    list.push(start as u32);
    list.push(room as u32);
    let mut header = vec![FILL; room];
    let written = run.frame(intra, types, numbers, start, &mut header);
    push_answer(list, written);
    push_counted(list, &header);
    (written.err().unwrap_or(0), header)
}

/// The refusal and a count.
fn push_answer(list: &mut List, answer: Result<usize, u32>) {
    list.push(answer.err().unwrap_or(0));
    list.push(answer.unwrap_or(0) as u32);
}

fn push_read(list: &mut List, mut run: Run, intra: bool, bytes: &[u8], at: usize) -> u32 {
    list.push(u32::from(intra));
    push_counted(list, bytes);
    list.push(at as u32);
    let read = run.read(intra, bytes, at);
    let (types, models, bits) = read.unwrap_or(([0; 7], [[0; 6]; 7], 0));
    list.push(read.err().unwrap_or(0));
    list.push(bits as u32);
    list.push_raw(&types);
    push_numbers(list, &models.concat());
    read.err().unwrap_or(0)
}

/// Words of zeros follow those listed, up to as many as are handed in.
fn push_store(
    list: &mut List,
    run: &Run,
    frame: u16,
    words: &[u32],
    handed: usize,
    classes: &[u8],
    room: usize,
) -> (u32, Vec<u8>) {
    list.push(u32::from(frame));
    list.push(words.len() as u32);
    list.push(handed as u32);
    words.iter().for_each(|&word| list.push(word));
    push_counted(list, classes);
    list.push(room as u32);
    let mut all = words.to_vec();
    all.resize(handed, 0);
    let mut left = vec![FILL; room];
    let stored = run.store(frame, &all, classes, &mut left);
    push_answer(list, stored);
    push_counted(list, &left);
    (stored.err().unwrap_or(0), left)
}

fn push_job(list: &mut List, run: &mut Run, job: &Job) -> (u32, Vec<u8>) {
    push_asked(list, job);
    let (input, reference) = job.pels();
    let (mut words, mut halves) = (Vec::new(), [Vec::new(), Vec::new()]);
    let own = job.judged(run).and_then(|()| {
        if job.samples() > 0 {
            words = oracle::sample_words(&input, &reference, job.width, job.height);
            halves = [&input, &reference].map(|plane| oracle::half_plane(plane, job.width, job.height));
        }
        job.own(&words, run.flag == HIGH)
    });
    let (mut blocks_left, mut header) = (vec![FILL; job.rooms[3]], vec![FILL; job.rooms[4]]);
    match own {
        Ok(own) => {
            let (types, models) = with_own(job, own);
            let bits = run.frame(false, &types, &models.concat(), job.start, &mut header);
            let bits = bits.expect("a job's own model is on the grid");
            list.push(0);
            list.push(words.len() as u32);
            list.push_raw(&types);
            push_numbers(list, &models.concat());
            list.push_float(own.score);
            list.push(bits as u32);
            run.store(job.frame, &words, &job.classes, &mut blocks_left).expect("what was searched can be stored");
        }
        Err(refusal) => {
            list.push(refusal);
            list.push(0);
            list.push_raw(&[0; 7]);
            push_numbers(list, &[0; 42]);
            list.push_float(0.0);
            list.push(0);
        }
    }
    push_counted(list, &blocks_left);
    push_counted(list, &header);
    list.push(halves[0].len() as u32);
    halves.iter().for_each(|half| list.push(list::sum(half)));
    list.push(words.len() as u32);
    words.iter().for_each(|&word| list.push(word));
    (own.err().unwrap_or(0), [&blocks_left[..], &header].concat())
}

/// Seven types and models, the job's own at its reference.
fn with_own(job: &Job, own: Elected) -> (Vec<u8>, Vec<[i32; 6]>) {
    let place = usize::from(job.reference) - 1;
    let mut types = job.types.clone();
    types.insert(place, own.kind);
    let mut models: Vec<[i32; 6]> = job.numbers.chunks(6).map(|m| std::array::from_fn(|slot| m[slot])).collect();
    models.insert(place, own.params);
    (types, models)
}

fn push_asked(list: &mut List, job: &Job) {
    list.push(job.width as u32);
    list.push(job.height as u32);
    match job.planes {
        Planes::None => list.push(0),
        Planes::Practised { seed, dy, dx } => {
            list.push(1);
            list.push(seed);
            push_numbers(list, &[dy, dx]);
        }
        Planes::Bowl(_) => {
            list.push(2);
            let (input, reference) = job.pels();
            list.push(reference.len() as u32);
            reference.iter().chain(&input).for_each(|&pel| list.push(u32::from(pel)));
        }
    }
    list.push(u32::from(job.frame));
    for code in [job.kind, job.reference, job.flag, job.trim, job.elect, job.set] {
        list.push(u32::from(code));
    }
    list.push(job.start as u32);
    list.push(job.input_pels as u32);
    list.push(job.ref_pels as u32);
    push_counted(list, &job.classes);
    push_counted(list, &job.types);
    list.push(job.numbers.len() as u32);
    push_numbers(list, &job.numbers);
    job.rooms.iter().for_each(|&room| list.push(room as u32));
}

// ---- runs worked by hand

/// An event with its refusal and, where they are given, the first bytes that it leaves.
type Worked = (Event, u32, Option<Vec<u8>>);

fn worked(list: &mut List) {
    list.push(10);
    let run = push_start(list, HIGH, 1);
    push_worked(list, run, recording());
    for (flag, form) in [(2, 1), (HIGH, 0), (LOW, 3)] {
        let run = push_start(list, flag, form);
        push_worked(list, run, vec![(Event::Switch(0), 4, None), (frame(&moving(8192, -8192)), 4, None)]);
    }
    let out = |flag, form| {
        let mut run = Run { prior: [IDENTITY; 7], flag, form };
        run.prior[0][0] = 4_194_305;
        run
    };
    let run = push_handed(list, out(HIGH, 1));
    push_worked(list, run, out_of_range());
    let run = push_handed(list, out(2, 1));
    let key_read = Event::Read { intra: true, bytes: Vec::new(), at: 99 };
    push_worked(list, run, vec![(Event::Switch(1), 4, None), (key_read, 4, None)]);
    let run = push_handed(list, Run { form: 0, ..Run::start(HIGH, 2).expect("both codes are right") });
    let late = Event::Frame { intra: false, types: vec![0; 7], numbers: [IDENTITY; 7].concat(), start: 9, room: 6 };
    push_worked(list, run, vec![(late, 4, None), (store(5, &[0x0006_FB7C], &[4]), 4, None)]);
    let run = push_start(list, HIGH, 1);
    push_worked(list, run, stored());
    let run = push_start(list, HIGH, 1);
    push_worked(list, run, bowls());
    let run = push_start(list, LOW, 1);
    push_worked(list, run, two_blocks());
}

/// The events, each held to what is written here.
fn push_worked(list: &mut List, mut run: Run, events: Vec<Worked>) {
    list.push(events.len() as u32);
    for (number, (event, refusal, bytes)) in events.iter().enumerate() {
        let (given, left) = push_event(list, &mut run, event);
        assert_eq!(given, *refusal, "event {number}");
        if let Some(bytes) = bytes {
            assert_eq!(left[..bytes.len()], bytes[..], "event {number}");
        }
    }
}

/// Seven types and models: a TRANSLATION at reference 1, the rest identity.
fn moving(row: i32, column: i32) -> ([u8; 7], Models) {
    let mut models = [IDENTITY; 7];
    (models[0][0], models[0][1]) = (row, column);
    ([1, 0, 0, 0, 0, 0, 0], models)
}

fn frame((types, models): &([u8; 7], Models)) -> Event {
    Event::Frame { intra: false, types: types.to_vec(), numbers: models.concat(), start: 0, room: 6 }
}

fn key(types: [u8; 7], start: usize) -> Event {
    Event::Frame { intra: true, types: types.to_vec(), numbers: [IDENTITY; 7].concat(), start, room: 6 }
}

fn hex(digits: &str) -> Option<Vec<u8>> {
    Some((0..digits.len()).step_by(2).map(|i| u8::from_str_radix(&digits[i..i + 2], 16).unwrap()).collect())
}

fn recording() -> Vec<Worked> {
    let (p, q) = (moving(8192, -8192), moving(16384, -16384));
    let mut turned = ([0; 7], [IDENTITY; 7]);
    turned.0[1] = 2;
    turned.1[1] = [1024, 0, 65538, 2, -2, 65538];
    vec![
        (frame(&p), 0, hex("A42000FFFFFF")),
        (frame(&p), 0, hex("A00000FFFFFF")),
        (frame(&turned), 0, hex("644400FFFFFF")),
        (frame(&p), 0, hex("A42000FFFFFF")),
        (Event::Switch(0), 0, None),
        (frame(&moving(24576, -8192)), 7, hex("FFFFFFFFFFFF")),
        (frame(&q), 0, hex("A40000FFFFFF")),
        (Event::Switch(3), 4, None),
        (Event::Switch(2), 0, None),
        (key([0; 7], 2), 0, hex("FFFFFFFFFFFF")),
        (frame(&q), 0, hex("A42000FFFFFF")),
        (frame(&q), 0, hex("A00000FFFFFF")),
        (Event::Switch(2), 0, None),
    ]
}

fn out_of_range() -> Vec<Worked> {
    vec![
        (Event::Switch(1), 8, None),
        (Event::Switch(3), 4, None),
        (key([0; 7], 0), 8, None),
        (key([1, 0, 0, 0, 0, 0, 0], 0), 7, None),
        (frame(&moving(8192, -8192)), 8, None),
        (Event::Read { intra: true, bytes: Vec::new(), at: 0 }, 8, None),
        (Event::Read { intra: false, bytes: Vec::new(), at: 0 }, 8, None),
        (store(5, &[0x0006_FB7C], &[5]), 4, None),
        (store(0, &[0x0006_FB7D], &[4]), 8, None),
        (Event::Job(Job { rooms: [0; 5], ..Job::plain(Planes::Bowl(shifted), 16, 16, 5) }), 8, None),
    ]
}

fn store(frame: u16, words: &[u32], classes: &[u8]) -> Event {
    Event::Store { frame, words: words.to_vec(), handed: words.len(), classes: classes.to_vec(), room: 600 }
}

/// One sample in each form; the rows 1, 2, 4, 12, 13, 3, 17 in their order.
fn stored() -> Vec<Worked> {
    let first = |form: u8, check: &str| {
        let mut bytes = hex("00050001000100000006FB7C").unwrap();
        bytes[2] = form;
        (bytes, hex(check).unwrap())
    };
    let whole = |form: u8, class: u8, check: &str| {
        let (mut bytes, check) = first(form, check);
        if form == 1 {
            bytes[11] |= class;
        } else {
            bytes.push(class);
        }
        bytes.resize(blocks::CHECK, 0);
        Some([bytes, check].concat())
    };
    let untouched = || Some(vec![FILL; 600]);
    let short =
        |frame, class| Event::Store { frame, words: vec![0x0006_FB7C], handed: 1, classes: vec![class], room: 511 };
    vec![
        (store(5, &[0x0006_FB7C], &[3]), 0, whole(1, 3, "000CFC81")),
        (store(5, &[0x0006_FB7C], &[4]), 13, untouched()),
        (store(5, &[0x0006_FB7D], &[4]), 12, untouched()),
        (short(5, 4), 13, None),
        (store(0, &[0x0006_FB7C], &[4]), 13, untouched()),
        (short(0, 3), 3, None),
        (store(0, &[0x0006_FB7C], &[3]), 17, untouched()),
        (store(5, &[0x0006_FB7D], &[5]), 4, untouched()),
        (store(5, &[0x0006_FB7C], &[]), 2, untouched()),
        (Event::Store { frame: 5, words: vec![], handed: 4097, classes: vec![], room: 600 }, 1, untouched()),
        (Event::Switch(2), 0, None),
        (store(5, &[0x0006_FB7C], &[4]), 0, whole(2, 4, "040CFD7E")),
        (store(0, &[], &[]), 17, untouched()),
        (store(5, &[], &[]), 0, untouched()),
    ]
}

fn shifted(r: i32, c: i32) -> (i32, i32) {
    (r + 2, c - 3)
}

/// The bowl of docs/RULES.md, 'Job', that is elected a TRANSLATION, in form 1 and in form 2.
fn bowls() -> Vec<Worked> {
    let bowl = |classes| Job { elect: 1, ..Job::plain(Planes::Bowl(shifted), 64, 64, classes) };
    let block = |form: u8, check: &str| {
        let frame_and_form = [0, 5, form, 16];
        (frame_and_form, hex(check).unwrap())
    };
    let no_room = Job { rooms: [0; 5], ..bowl(5) };
    let mut events = vec![
        (Event::Job(no_room.clone()), 13, None),
        (Event::Job(Job { frame: 0, ..bowl(5) }), 13, None),
        (Event::Job(Job { start: 8, ..no_room }), 14, None),
    ];
    let mut checked = Vec::new();
    for (switch, classes, (head, check)) in [(1, 4, block(1, "620CAAE9")), (2, 5, block(2, "5BAFD427"))] {
        events.push((Event::Switch(switch), 0, None));
        events.push((Event::Job(bowl(classes)), 0, Some(head.to_vec())));
        checked.push((classes, check));
        events.push((Event::Job(Job { frame: 0, ..bowl(classes) }), 17, None));
    }
    // the checks stand at the end of each block
    let mut run = Run::start(HIGH, 1).expect("both codes are right");
    for (place, (classes, check)) in checked.iter().enumerate() {
        if place == 1 {
            run.switch(2).expect("the run is right");
        }
        let (_, left) = push_job(&mut List::default(), &mut run, &bowl(*classes));
        assert_eq!(left[blocks::CHECK..BLOCK], check[..], "the block in form {}", run.form);
    }
    events
}

/// 110 samples: one block of form 1, two of form 2, where room for one is too short.
fn two_blocks() -> Vec<Worked> {
    let planes = Planes::Practised { seed: 1, dy: 3, dx: -5 };
    let job = |classes| Job { frame: 9, kind: 2, reference: 4, start: 3, ..Job::plain(planes, 176, 160, classes) };
    let one_block = |classes| Job { rooms: [HALF_PELS, HALF_PELS, WORDS, BLOCK, HEADER_BYTES], ..job(classes) };
    vec![
        (Event::Job(one_block(4)), 0, Some(vec![0, 9, 1, 110])),
        (Event::Switch(2), 0, None),
        (Event::Job(one_block(5)), 3, Some(vec![FILL; BLOCK])),
        (Event::Job(job(5)), 0, Some(vec![0, 9, 2, 100])),
    ]
}

// ---- random runs

fn random_run(list: &mut List, lcg: &mut Lcg) {
    let mut run = match lcg.below(8) {
        0 => {
            let (flag, form) = [(2, 1), (0, 0), (1, 3), (255, 2)][usize::from(lcg.below(4))];
            push_start(list, flag, form)
        }
        1 => push_handed(list, bad_run(lcg)),
        2 => push_handed(list, Run { prior: lcg.prior(), flag: lcg.below(2) as u8, form: 1 + u32::from(lcg.below(2)) }),
        _ => push_start(list, lcg.below(2) as u8, 1 + u32::from(lcg.below(2))),
    };
    let refused = run.judged().is_err();
    let events = if refused { 3 } else { 4 + u32::from(lcg.below(9)) };
    list.push(events);
    let mut last = ([0; 7], [IDENTITY; 7]);
    for _ in 0..events {
        let event = match lcg.below(12) {
            0 | 1 => Event::Switch([0, 1, 0, 1, 2, 2, 3, 255][usize::from(lcg.below(8))]),
            2 => random_store(lcg, &run),
            3 => Event::Job(random_job(lcg, &run)),
            4 => random_read(lcg, &run),
            _ => random_frame(lcg, &run, &mut last),
        };
        push_event(list, &mut run, &event);
    }
}

/// A run with a code that there isn't, or a number of its prior beyond its range by one.
fn bad_run(lcg: &mut Lcg) -> Run {
    let mut run = Run { prior: lcg.prior(), flag: lcg.below(2) as u8, form: 1 + u32::from(lcg.below(2)) };
    match lcg.below(4) {
        0 => run.flag = 2,
        1 => run.form = [0, 3, u32::MAX][usize::from(lcg.below(3))],
        _ => {
            let (reference, slot) = (usize::from(lcg.below(7)), usize::from(lcg.below(6)));
            let beyond = if slot < 2 { 4_194_305 } else { 8_193 };
            run.prior[reference][slot] = IDENTITY[slot] + if lcg.below(2) == 0 { beyond } else { -beyond };
        }
    }
    run
}

/// Models on the grid, those of the frame before, which another flag may take off it, or identities; at times a fault.
fn random_frame(lcg: &mut Lcg, run: &Run, last: &mut ([u8; 7], Models)) -> Event {
    let intra = lcg.below(5) == 0;
    let (types, models) = match (intra, lcg.below(6)) {
        (true, _) | (_, 0) => ([0; 7], [IDENTITY; 7]),
        (_, 1) => *last,
        _ => lcg.models(run.flag == HIGH),
    };
    let (mut types, mut numbers) = (types.to_vec(), models.concat());
    let mut start = usize::from(lcg.below(8));
    let mut room = HEADER_BYTES;
    let place = usize::from(lcg.below(7));
    match lcg.below(28) {
        0 => types.truncate(6),
        1 => numbers.push(0),
        2 => types[place] = 4,
        3 => start = [8, 9, u32::MAX as usize][usize::from(lcg.below(3))],
        4 => numbers[6 * place + 3] += 1,
        5 => types[place] = 1 + lcg.below(3) as u8,
        6 => room = usize::from(lcg.below(3)),
        7 => room = usize::from(lcg.below(40)),
        _ => *last = (std::array::from_fn(|i| types[i]), models),
    }
    Event::Frame { intra, types, numbers, start, room }
}

/// Bytes of a header, whole or cut, or any bytes.
fn random_read(lcg: &mut Lcg, run: &Run) -> Event {
    let intra = lcg.below(4) == 0;
    let at = usize::from(lcg.below(8));
    let mut bytes = vec![FILL; HEADER_BYTES];
    let (types, models) = lcg.models(run.flag == HIGH);
    let mut written = *run;
    match written.frame(false, &types, &models.concat(), at, &mut bytes) {
        Ok(bits) => bytes.truncate((at + bits).div_ceil(8) - usize::from(lcg.below(2))),
        Err(_) => bytes = (0..lcg.below(20)).map(|_| lcg.step() as u8).collect(),
    }
    Event::Read { intra, bytes, at }
}

fn random_store(lcg: &mut Lcg, run: &Run) -> Event {
    let count = usize::from(lcg.below(4)) * usize::from(lcg.below(44));
    let seed = lcg.word();
    let mut words: Vec<u32> = blocks::words(seed, count).iter().map(|word| word & !3).collect();
    let most = if run.form == 1 && lcg.below(4) > 0 { 4 } else { 5 };
    let mut classes: Vec<u8> = (0..count).map(|_| lcg.below(most) as u8).collect();
    let (mut frame, mut room) = (lcg.step().max(1), BLOCK_BYTES);
    match lcg.below(10) {
        0 => frame = 0,
        1 => room = usize::from(lcg.below(1030)),
        2 if count > 1 => words.swap(0, count - 1),
        3 if count > 0 => words[count / 2] |= 1,
        4 => classes.push(0),
        5 if count > 0 => classes[0] = 5,
        _ => {}
    }
    Event::Store { frame, handed: words.len(), words, classes, room }
}

fn random_job(lcg: &mut Lcg, run: &Run) -> Job {
    let side = |lcg: &mut Lcg| [16, 32, 48, 33][usize::from(lcg.below(4))];
    let (width, height) = (side(lcg), side(lcg));
    let shift = |lcg: &mut Lcg| i32::from(lcg.below(13)) - 6;
    let planes = match lcg.below(3) {
        0 => Planes::Practised { seed: lcg.word(), dy: shift(lcg), dx: shift(lcg) },
        1 => Planes::Bowl(shifted),
        _ => Planes::Bowl(|r, c| (r + r / 16, c + c / 16)),
    };
    let most = if run.form == 1 && lcg.below(4) > 0 { 4 } else { 5 };
    let reference = 1 + lcg.below(7) as u8;
    let (types, models) = lcg.models(run.flag == HIGH);
    let others = (0..7).filter(|&i| i != usize::from(reference) - 1);
    let mut job = Job {
        frame: lcg.step().max(1),
        kind: 1 + lcg.below(3) as u8,
        reference,
        flag: lcg.step() as u8,
        trim: lcg.below(2) as u8,
        elect: lcg.below(2) as u8,
        set: if lcg.below(2) == 0 { ALL } else { 1 + lcg.below(31) as u8 },
        start: usize::from(lcg.below(8)),
        types: others.clone().map(|i| types[i]).collect(),
        numbers: others.flat_map(|i| models[i]).collect(),
        ..Job::plain(planes, width, height, most)
    };
    match lcg.below(24) {
        0 => (job.planes, job.width) = (Planes::None, 1025),
        1 => job.ref_pels -= 1,
        2 => job.types[3] = 4,
        3 => job.set = 0,
        4 => job.reference = 8,
        5 => job.start = 8,
        6 => job.numbers[2] += 1,
        7 => job.rooms[3] = 511,
        8 => job.rooms[4] = 124,
        9 => job.frame = 0,
        _ => {}
    }
    job
}
