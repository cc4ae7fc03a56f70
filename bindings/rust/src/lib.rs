// SPDX-License-Identifier: MIT
//! The proved motion core, for Rust.
//!
//! Search, fits, grid, blocks, header and the whole job of the static library `libbelt.a`, over slices and structs.
//! `docs/RUST.md` of the repository is the way in. `docs/RULES.md` has the rules: what a plane, a sample word, a block, a
//! model and a header are, bit by bit; names in quotes here are its sections. Each call's answer is an equation that is
//! proved of the library's code, refused and accepted alike; the compiler's back end and the passing of arguments between
//! the two languages are not proved, and are compared by `oracle/compare`.
//!
//! ```
//! use belt::{Buffers, Task};
//!
//! // a belt to practise on, which runs 4 pels to the right and 2 up from the earlier frame to the later one
//! let (mut earlier, mut later) = (vec![0; 96 * 80], vec![0; 96 * 80]);
//! belt::make_practice_planes(1, 96, 80, -2, 4, &mut earlier, &mut later)?;
//! let mut buffers = Buffers::new(96, 80);
//! let report = belt::job(&Task::new(&earlier, &later, 96, 80), &mut buffers.lend())?;
//! let model = report.model();
//! assert_eq!((model.shift().u, model.shift().v), (4.0, -2.0));
//! assert_eq!((model.agreeing(&buffers.words, 0.25), report.samples), (30, 30));
//! # Ok::<(), belt::Refusal>(())
//! ```
//!
//! **Which way is motion?** From the input to the reference: what the input shows at (x, y) stands at (x + u, y + v) in
//! the reference. With the earlier frame as input it is the load's own motion. With the later frame as input and the
//! earlier as reference it is the negative, and [`Model::moved_since_reference`] gives the load's.
//!
//! **Refusals.** A call that refuses answers with the table's row, a [`Refusal`], and leaves the lent slices as they were;
//! the one exception is [`job`] with [`Refusal::Singular`] or [`Refusal::NotFinite`]. An accepted call writes only the
//! part that it uses.
//!
//! **Codes.** A type is a [`GmType`], a precision a [`Precision`], a form a [`Form`]; a call also takes the plain number of
//! one, as it came from outside, and judges it ([`Code`]). Answers and lists of types hold the numbers:
//! [`GmType::try_from`] names them. Classes are bytes: [`UNSORTED`], [`FIBRE`], [`RIGID_PLASTIC`], [`METAL`] and
//! [`FILM`]. They stand beside the words: the words of a search, a job and [`read_both`] have class bits zero. A
//! [`ClassSet`] says which classes a fit takes.
//!
//! **Models** have one of two orders, each a type of its own: [`Model`], x first, is what fits, grid and score have;
//! [`StoredModel`] is what headers, priors and reports have.
//!
//! **Frames that follow each other** are recorded in a [`Run`], which carries the prior from each to the next, and read
//! back by a [`RunReader`].
//!
//! **Limits.** A plane is at most 1,024 pels wide and high, and the search finds motion of at most 27.875 pels. What moved
//! further isn't refused: [`Model::agreeing`] shows it.
//!
//! **Threads and memory.** The library keeps nothing between calls, so any number of threads may call it at once, and it
//! allocates nothing; of this crate [`Buffers`] alone does, and what starts threads. One frame goes on several threads by
//! [`job_parallel`], [`Run::job_parallel`] and [`search_parallel`], with the answers of [`job`], [`Run::job`] and
//! [`collect_motion_samples`], bit for bit, or in bands by [`search_band`] and [`job_of_words`]. A call that trims or elects takes about 57 kB of the thread's
//! stack over words, 74 kB by a set of classes, 35 kB over samples and 168 kB over those by a set; a job about 24 kB, 75 kB if it trims or elects, in
//! a run 25 and 77 kB. It expects the floating-point environment that a process begins with: rounding to nearest, traps
//! off.
//!
//! **Without `std`.** `default-features = false` leaves `core` and `alloc`, and all but `Model::degrees` and the three
//! that start threads.
//!
//! **What may come.** Within a major version nothing here is taken away or changes its meaning. What is marked
//! `#[non_exhaustive]` may get fields or rows: [`Settings`], [`Report`], [`Searched`], [`Models`], [`Run`],
//! [`RunReader`], [`Form`], [`Refusal`]. The library's major version is held when a program is linked ([`library_version`]).
#![cfg_attr(not(feature = "std"), no_std)]
#![deny(unsafe_code)]
#![deny(missing_docs)]
#![deny(rustdoc::broken_intra_doc_links)]

extern crate alloc;

mod bands;
mod blocks;
mod by_class;
mod class_set;
mod codes;
mod fits;
mod header;
mod job;
mod model;
#[allow(unsafe_code)]
mod raw;
mod refusal;
mod run;
mod samples;
mod search;

#[cfg(feature = "std")]
pub use bands::search_parallel;
pub use bands::{half_plane, search_band};
pub use blocks::{
    Block, Frame, block_bytes, blocks_of, judge_block, list_block, read_both, read_frame, to_form1, to_form2,
    write_frame,
};
pub use by_class::{
    elect_by_class, fit_by_class, fit_trimmed_by_class, quantize_by_class, quantize_trimmed_by_class, score_by_class,
};
pub use class_set::ClassSet;
pub use codes::{Code, Form, GmType, Precision};
pub use fits::{
    Elected, Fitted, Trimmed, TrimmedModel, elect, fit_affine, fit_rotzoom, fit_translation, fit_trimmed,
    mean_sq_residual, quantize_global_param, quantize_model, quantize_trimmed, root,
};
pub use header::{
    Kind, Models, PriceList, Shear, coefficient_prices, encode_global_motion, encode_inter_global_motion, frame_price,
    read_global_motion, read_global_motion_params, setup_shear,
};
#[cfg(feature = "std")]
pub use job::job_parallel;
pub use job::{Buffers, Lent, Report, Settings, Task, WordTask, job, job_of_words};
pub use model::{IDENTITIES, Model, Motion, MotionSample, Sample, StoredModel};
pub use raw::TEXT_BYTES;
pub use refusal::{Length, Refusal};
pub use run::{Run, RunReader, TO_FORM_2, TO_HIGH_PRECISION, TO_LOW_PRECISION};
pub use samples::{
    elect_samples, elect_samples_by_class, fit_affine_samples, fit_rotzoom_samples, fit_samples_by_class,
    fit_translation_samples, fit_trimmed_samples, fit_trimmed_samples_by_class, mean_sq_residual_samples,
    quantize_model_samples, quantize_samples_by_class, quantize_trimmed_samples, quantize_trimmed_samples_by_class,
    score_samples_by_class,
};
pub use search::{Searched, collect_motion_samples, half_plane_values, make_practice_planes, sample_count};

use search::{planes, rooms};

/// The longest side of a plane, in pels.
pub const MOST_SIDE: usize = 1024;
/// The side of the blocks that a plane is searched in.
pub const BLOCK_SIDE: usize = 16;
/// The most samples of a frame or a list.
pub const MOST_SAMPLES: usize = 4096;
/// No motion passes so many eighths either way: 27.875 pels.
pub const MOST_EIGHTHS: u16 = 223;
/// The largest component of a practice belt's motion either way, in pels.
pub const MOST_SHIFT: i32 = 24;
/// The bytes of a sample block.
pub const BLOCK_BYTES: usize = 512;
/// The bytes that a header never exceeds, whatever its start, and that a job asks for.
pub const HEADER_BYTES: usize = 125;
/// Class 0.
pub const UNSORTED: u8 = 0;
/// Class 1.
pub const FIBRE: u8 = 1;
/// Class 2.
pub const RIGID_PLASTIC: u8 = 2;
/// Class 3.
pub const METAL: u8 = 3;
/// Class 4. Form 1 can't hold it.
pub const FILM: u8 = 4;
/// The classes' words, by their codes.
pub const CLASSES: &[&str] = &["unsorted", "fibre", "rigid plastic", "metal", "film"];

/// The version of the library that is linked: MAJOR * 1,000,000 + MINOR * 1,000 + PATCH. A library of another major version
/// than this crate's doesn't link.
///
/// ```
/// let major: u32 = env!("CARGO_PKG_VERSION_MAJOR").parse().unwrap();
/// assert_eq!(belt::library_version() / 1_000_000, major);
/// ```
#[must_use]
pub fn library_version() -> u32 {
    raw::version()
}

/// The page for Rust programmers, whose snippets run as these do.
#[cfg(all(doctest, belt_repository))]
#[doc = include_str!("../../../docs/RUST.md")]
mod page {}
