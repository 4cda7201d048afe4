//! The allocator of this program: the system's, or, where a thread asks for it, one that ends each allocation at a page which may not be
//! touched, and closes its pages once it is freed. So what the binding allocates and lends to the library is seen too.

use crate::lent::{PAGE, close, open, reserve};
use std::alloc::{GlobalAlloc, Layout, System};
use std::cell::Cell;
use std::sync::atomic::{AtomicUsize, Ordering::SeqCst};

/// Address space for guarded allocations.
const REGION: usize = 1 << 32;

pub struct Guarding;

static REGION_AT: AtomicUsize = AtomicUsize::new(0);
/// How much of the region is taken, and how many allocations there are in it.
static TAKEN: AtomicUsize = AtomicUsize::new(0);
static LIVE: AtomicUsize = AtomicUsize::new(0);
static COUNT: AtomicUsize = AtomicUsize::new(0);

thread_local! {
    static ASKED: Cell<bool> = const { Cell::new(false) };
}

/// The call, its allocations guarded. One thread may ask at a time.
pub fn guarded<T>(asked: bool, call: impl FnOnce() -> T) -> T {
    if asked && REGION_AT.load(SeqCst) == 0 {
        REGION_AT.store(reserve(REGION) as usize, SeqCst);
    }
    ASKED.set(asked);
    let answer = call();
    ASKED.set(false);
    answer
}

/// How many allocations were guarded.
pub fn count() -> usize {
    COUNT.load(SeqCst)
}

fn in_region(at: *mut u8) -> bool {
    let from = REGION_AT.load(SeqCst);
    from != 0 && (from..from + REGION).contains(&(at as usize))
}

/// Pages for so many bytes, the slice at their end.
fn guard(layout: Layout) -> Option<*mut u8> {
    let base = REGION_AT.load(SeqCst) as *mut u8;
    let bytes = layout.size().next_multiple_of(PAGE);
    let from = TAKEN.fetch_add(bytes + PAGE, SeqCst);
    let fits = layout.align() <= PAGE && from + bytes + PAGE <= REGION;
    if base.is_null() || !fits || !open(base.wrapping_add(from), bytes) {
        return None;
    }
    LIVE.fetch_add(1, SeqCst);
    COUNT.fetch_add(1, SeqCst);
    let at = (bytes - layout.size()) & !(layout.align() - 1);
    Some(base.wrapping_add(from + at))
}

// SAFETY: what is not the system's is a range of pages of its own, aligned as asked, until it is given back.
unsafe impl GlobalAlloc for Guarding {
    unsafe fn alloc(&self, layout: Layout) -> *mut u8 {
        let guarded = if ASKED.get() { guard(layout) } else { None };
        // SAFETY: the caller's layout.
        guarded.unwrap_or_else(|| unsafe { System.alloc(layout) })
    }

    unsafe fn dealloc(&self, at: *mut u8, layout: Layout) {
        if !in_region(at) {
            // SAFETY: it came from there.
            return unsafe { System.dealloc(at, layout) };
        }
        let from = at as usize & !(PAGE - 1);
        let end = (at as usize + layout.size()).next_multiple_of(PAGE);
        close(from as *mut u8, end - from);
        if LIVE.fetch_sub(1, SeqCst) == 1 {
            TAKEN.store(0, SeqCst);
        }
    }

    unsafe fn realloc(&self, at: *mut u8, layout: Layout, size: usize) -> *mut u8 {
        if !in_region(at) && !ASKED.get() {
            // SAFETY: it came from there.
            return unsafe { System.realloc(at, layout, size) };
        }
        // SAFETY: the caller's layout with another size, and two allocations that do not overlap.
        unsafe {
            let new = self.alloc(Layout::from_size_align_unchecked(size, layout.align()));
            if !new.is_null() {
                std::ptr::copy_nonoverlapping(at, new, layout.size().min(size));
                self.dealloc(at, layout);
            }
            new
        }
    }
}
