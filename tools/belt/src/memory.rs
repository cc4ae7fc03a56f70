//! Memory that runs out is one line and status 2, like every other failure, and leaves no file.

use crate::output;
use std::alloc::{GlobalAlloc, Layout, System};
use std::io::{self, Write};
use std::process;

/// The system's memory; where there is none left, the tool ends.
pub struct Told;

/// Keeps what is freed for the next frame: the system's memory would give every large piece back, and have to clear it
/// when it is asked for again.
#[cfg(target_env = "gnu")]
pub fn keep() {
    /// How much is kept at the most, in bytes, and what is large (mallopt of the C library).
    const KEPT: i32 = 64 << 20;
    const TRIM: i32 = -1;
    const LARGE: i32 = -3;
    unsafe extern "C" {
        fn mallopt(what: i32, value: i32) -> i32;
    }
    // SAFETY: two numbers that the C library judges itself, ahead of any thread
    unsafe {
        mallopt(TRIM, KEPT);
        mallopt(LARGE, KEPT / 2);
    }
}

#[cfg(not(target_env = "gnu"))]
pub fn keep() {}

fn told(place: *mut u8) -> *mut u8 {
    if place.is_null() {
        output::remove_parts();
        let _ = io::stderr().write_all(b"belt: out of memory\n");
        process::exit(2);
    }
    place
}

// SAFETY: each call is the system's own, with the same arguments; what is answered is its answer.
unsafe impl GlobalAlloc for Told {
    unsafe fn alloc(&self, layout: Layout) -> *mut u8 {
        told(unsafe { System.alloc(layout) })
    }

    unsafe fn alloc_zeroed(&self, layout: Layout) -> *mut u8 {
        told(unsafe { System.alloc_zeroed(layout) })
    }

    unsafe fn realloc(&self, place: *mut u8, layout: Layout, size: usize) -> *mut u8 {
        told(unsafe { System.realloc(place, layout, size) })
    }

    unsafe fn dealloc(&self, place: *mut u8, layout: Layout) {
        unsafe { System.dealloc(place, layout) }
    }
}
