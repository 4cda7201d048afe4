//! The bytes that are allocated: `malloc` and its kin are this program's own, over those of glibc, so that the original's and HarfBuzz's
//! allocations are counted alike. Only `run memory` builds it in (feature counted), for it costs time.

use std::ffi::{c_int, c_void};
use std::sync::atomic::{AtomicUsize, Ordering::Relaxed};

static NOW: AtomicUsize = AtomicUsize::new(0);
static MOST: AtomicUsize = AtomicUsize::new(0);

unsafe extern "C" {
    fn __libc_malloc(size: usize) -> *mut c_void;
    fn __libc_calloc(count: usize, size: usize) -> *mut c_void;
    fn __libc_realloc(old: *mut c_void, size: usize) -> *mut c_void;
    fn __libc_memalign(align: usize, size: usize) -> *mut c_void;
    fn __libc_free(old: *mut c_void);
    fn malloc_usable_size(of: *mut c_void) -> usize;
}

/// Counts what was given.
unsafe fn given(new: *mut c_void) -> *mut c_void {
    // SAFETY: allocated, or null, which has no bytes.
    let size = unsafe { malloc_usable_size(new) };
    let now = NOW.fetch_add(size, Relaxed) + size;
    MOST.fetch_max(now, Relaxed);
    new
}

/// Counts what is taken back.
unsafe fn taken(old: *mut c_void) {
    // SAFETY: as above.
    NOW.fetch_sub(unsafe { malloc_usable_size(old) }, Relaxed);
}

// SAFETY of all below: they answer as glibc's own.

#[unsafe(no_mangle)]
unsafe extern "C" fn malloc(size: usize) -> *mut c_void {
    unsafe { given(__libc_malloc(size)) }
}

#[unsafe(no_mangle)]
unsafe extern "C" fn calloc(count: usize, size: usize) -> *mut c_void {
    unsafe { given(__libc_calloc(count, size)) }
}

/// Old and new are there at once where it moves, which is not counted: glibc may also move by its page tables.
#[unsafe(no_mangle)]
unsafe extern "C" fn realloc(old: *mut c_void, size: usize) -> *mut c_void {
    unsafe {
        let before = malloc_usable_size(old);
        let new = __libc_realloc(old, size);
        if !new.is_null() || size == 0 {
            NOW.fetch_sub(before, Relaxed);
        }
        given(new)
    }
}

#[unsafe(no_mangle)]
unsafe extern "C" fn free(old: *mut c_void) {
    unsafe {
        taken(old);
        __libc_free(old);
    }
}

#[unsafe(no_mangle)]
unsafe extern "C" fn memalign(align: usize, size: usize) -> *mut c_void {
    unsafe { given(__libc_memalign(align, size)) }
}

#[unsafe(no_mangle)]
unsafe extern "C" fn aligned_alloc(align: usize, size: usize) -> *mut c_void {
    unsafe { memalign(align, size) }
}

#[unsafe(no_mangle)]
unsafe extern "C" fn posix_memalign(to: *mut *mut c_void, align: usize, size: usize) -> c_int {
    const NO_MEMORY: c_int = 12;
    unsafe {
        let new = memalign(align, size);
        if new.is_null() {
            return NO_MEMORY;
        }
        *to = new;
    }
    0
}

/// The most bytes at once, beyond those before, while something runs.
pub fn peak<T>(run: impl FnOnce() -> T) -> (usize, T) {
    let before = NOW.load(Relaxed);
    MOST.store(before, Relaxed);
    let result = run();
    (MOST.load(Relaxed) - before, result)
}
