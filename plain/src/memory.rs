//! What happens where memory is refused: the program ends with a line that says so.
//!
//! All output is kept to the end, and written from memory that is there by then. So wherever an allocation is refused nothing was
//! written yet, and there is nothing to take back.

#![warn(unsafe_op_in_unsafe_fn)]

use std::alloc::{GlobalAlloc, Layout, System};
use std::io::Write;

use crate::refusal::{Refusal, Refused};

struct OrEnd;

#[global_allocator]
static ALLOCATOR: OrEnd = OrEnd;

/// The block that the system gave, or the end of the program.
fn or_end(block: *mut u8) -> *mut u8 {
    if block.is_null() {
        end()
    }
    block
}

extern "C" {
    /// Ends the process, and does nothing else that might ask for memory.
    fn _exit(status: i32) -> !;
}

#[cold]
fn end() -> ! {
    let _ = writeln!(std::io::stderr(), "{}", Refused::from(Refusal::NoMemory));
    // SAFETY: it takes any status, and ends the process.
    unsafe { _exit(1) }
}

// SAFETY: each call is passed on to the system's allocator, whose answer is given back.
unsafe impl GlobalAlloc for OrEnd {
    #[inline]
    unsafe fn alloc(&self, layout: Layout) -> *mut u8 {
        or_end(unsafe { System.alloc(layout) })
    }

    #[inline]
    unsafe fn alloc_zeroed(&self, layout: Layout) -> *mut u8 {
        or_end(unsafe { System.alloc_zeroed(layout) })
    }

    #[inline]
    unsafe fn realloc(&self, block: *mut u8, layout: Layout, size: usize) -> *mut u8 {
        or_end(unsafe { System.realloc(block, layout, size) })
    }

    #[inline]
    unsafe fn dealloc(&self, block: *mut u8, layout: Layout) {
        unsafe { System.dealloc(block, layout) }
    }
}
