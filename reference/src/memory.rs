//! A heap limit: a derivative may have more nodes than memory holds, and the worker then ends at once.
use std::alloc::{GlobalAlloc, Layout, System};
use std::sync::atomic::{AtomicUsize, Ordering::Relaxed};

/// Bytes on the heap at most.
const LIMIT: usize = 2 << 30;
/// Exit status when the limit is met.
pub const STATUS: i32 = 3;

#[global_allocator]
static HEAP: Heap = Heap(AtomicUsize::new(0));

struct Heap(AtomicUsize);

extern "C" {
    fn _exit(status: i32) -> !;
}

impl Heap {
    fn take(&self, size: usize) {
        if self.0.fetch_add(size, Relaxed) + size > LIMIT {
            // SAFETY: ends the process; runs nothing of ours.
            unsafe { _exit(STATUS) }
        }
    }
    fn give(&self, size: usize) {
        self.0.fetch_sub(size, Relaxed);
    }
}

// SAFETY: the system's allocator does the work, this only counts.
unsafe impl GlobalAlloc for Heap {
    unsafe fn alloc(&self, layout: Layout) -> *mut u8 {
        self.take(layout.size());
        System.alloc(layout)
    }
    unsafe fn dealloc(&self, pointer: *mut u8, layout: Layout) {
        self.give(layout.size());
        System.dealloc(pointer, layout)
    }
    unsafe fn realloc(&self, pointer: *mut u8, layout: Layout, size: usize) -> *mut u8 {
        self.take(size);
        self.give(layout.size());
        System.realloc(pointer, layout, size)
    }
}
