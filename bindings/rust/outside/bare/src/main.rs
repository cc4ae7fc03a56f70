//! A program without the standard library: core, alloc, and of C its start, memory and output alone.
#![no_std]
#![no_main]

extern crate alloc;

use alloc::vec;
use belt::{Buffers, GmType, Refusal, Settings, Task};
use core::alloc::{GlobalAlloc, Layout};
use core::ffi::{c_char, c_int, c_void};
use core::fmt::{self, Write};
use core::panic::PanicInfo;

#[link(name = "c")]
unsafe extern "C" {
    fn aligned_alloc(alignment: usize, size: usize) -> *mut c_void;
    fn free(memory: *mut c_void);
    fn puts(text: *const c_char) -> c_int;
    fn abort() -> !;
}

struct OfC;

// SAFETY: C's memory is of the size and the alignment asked for, and is given back to C.
unsafe impl GlobalAlloc for OfC {
    unsafe fn alloc(&self, layout: Layout) -> *mut u8 {
        let alignment = layout.align().max(size_of::<usize>());
        unsafe { aligned_alloc(alignment, layout.size().next_multiple_of(alignment)).cast() }
    }

    unsafe fn dealloc(&self, memory: *mut u8, _: Layout) {
        unsafe { free(memory.cast()) }
    }
}

#[global_allocator]
static MEMORY: OfC = OfC;

#[panic_handler]
fn panicked(_: &PanicInfo<'_>) -> ! {
    // SAFETY: it doesn't come back.
    unsafe { abort() }
}

/// The compiled `alloc` names it; where a panic aborts nothing calls it.
#[unsafe(no_mangle)]
extern "C" fn rust_eh_personality() {}

/// A line of text that C can print: what stands behind it is zeros.
struct Line {
    text: [u8; 128],
    length: usize,
}

impl Write for Line {
    fn write_str(&mut self, more: &str) -> fmt::Result {
        let end = self.length + more.len();
        let room = self.text[..127].get_mut(self.length..end).ok_or(fmt::Error)?;
        room.copy_from_slice(more.as_bytes());
        self.length = end;
        Ok(())
    }
}

/// Measures a belt to practise on, and says what it found; whether most blocks agree.
fn measured() -> Result<bool, Refusal> {
    let (mut earlier, mut later) = (vec![0; 96 * 80], vec![0; 96 * 80]);
    belt::make_practice_planes(1, 96, 80, -2, 4, &mut earlier, &mut later)?;
    let task = Task { settings: Settings::fit(5, GmType::Affine).trim(), ..Task::new(&earlier, &later, 96, 80) };
    let mut buffers = Buffers::new(96, 80);
    let report = belt::job(&task, &mut buffers.lend())?;
    let (model, agreeing) = (report.model(), report.model().agreeing(&buffers.words, 0.25));
    let mut line = Line { text: [0; 128], length: 0 };
    let said = write!(line, "{:?}, zoom {:.3}, {agreeing} agree", model.motion_at(40.0, 40.0), model.zoom());
    // SAFETY: the text ends with a zero.
    unsafe { puts(line.text.as_ptr().cast()) };
    Ok(said.is_ok() && agreeing > report.samples / 2)
}

#[unsafe(no_mangle)]
extern "C" fn main(_: c_int, _: *const *const c_char) -> c_int {
    // an error is one without the standard library, too
    let error: &dyn core::error::Error = &Refusal::NoClass;
    c_int::from(measured() != Ok(true) || error.source().is_some())
}
