//! Memory that is lent to a call: a page that nobody may touch stands directly behind the slice, or directly before it. The library is
//! not built with the address sanitizer, which sees of its accesses only those by memcpy and memset; a page sees all of them.

use std::ffi::c_void;
use std::ptr;

pub const PAGE: usize = 4096;

/// As many bytes beside a slice, on the side that has no such page, hold `BESIDE` before and after a call.
const MARGIN: usize = 64;
const BESIDE: u8 = 0xc7;

const NONE: i32 = 0;
const READ: i32 = 1;
const READ_WRITE: i32 = 3;
/// MAP_PRIVATE, MAP_ANONYMOUS and MAP_NORESERVE of Linux.
const PRIVATE: i32 = 0x4022;

unsafe extern "C" {
    fn mmap(at: *mut c_void, len: usize, may: i32, flags: i32, file: i32, from: i64)
    -> *mut c_void;
    fn munmap(at: *mut c_void, len: usize) -> i32;
    fn mprotect(at: *mut c_void, len: usize, may: i32) -> i32;
    fn madvise(at: *mut c_void, len: usize, advice: i32) -> i32;
}

/// So many bytes that may not be touched, or null.
pub fn reserve(len: usize) -> *mut u8 {
    // SAFETY: a new mapping.
    let at = unsafe { mmap(ptr::null_mut(), len, NONE, PRIVATE, -1, 0) };
    if at as isize == -1 {
        ptr::null_mut()
    } else {
        at.cast()
    }
}

/// Whole pages of what was reserved may be read and written from here on.
pub fn open(at: *mut u8, len: usize) -> bool {
    // SAFETY: pages of a mapping of ours.
    unsafe { mprotect(at.cast(), len, READ_WRITE) == 0 }
}

/// They may not be touched any more, and what they held is gone.
pub fn close(at: *mut u8, len: usize) {
    const DONT_NEED: i32 = 4;
    // SAFETY: pages of a mapping of ours, which nobody uses.
    unsafe {
        madvise(at.cast(), len, DONT_NEED);
        mprotect(at.cast(), len, NONE);
    }
}

/// What the elements of a slice are before a call: each place has another value, and none is 0.
pub trait Element: Copy + PartialEq {
    fn found(k: usize) -> Self;
}

impl Element for u8 {
    fn found(k: usize) -> u8 {
        (k % 251) as u8 + 3
    }
}

impl Element for u16 {
    fn found(k: usize) -> u16 {
        (k % 65_521) as u16 + 7
    }
}

impl Element for u32 {
    fn found(k: usize) -> u32 {
        0xa5a5_0001_u32.wrapping_add(k as u32).max(1)
    }
}

impl Element for u64 {
    fn found(k: usize) -> u64 {
        0x5a5a_5a5a_0000_0001 + k as u64
    }
}

/// On which side of a slice the page stands that may not be touched.
#[derive(Clone, Copy, Debug, PartialEq, Eq)]
pub enum Side {
    Before,
    Behind,
}

/// Room for slices of one kind, one at a time.
pub struct Lent<T> {
    /// A page, the room, a page.
    map: *mut u8,
    /// Bytes of the room: whole pages.
    room: usize,
    side: Side,
    len: usize,
    /// Given as a null pointer, as a slice of no elements may be.
    null: bool,
    sealed: bool,
    element: std::marker::PhantomData<T>,
}

impl<T: Element> Lent<T> {
    pub fn new() -> Lent<T> {
        let mut lent = Lent {
            map: ptr::null_mut(),
            room: 0,
            side: Side::Behind,
            len: 0,
            null: false,
            sealed: false,
            element: std::marker::PhantomData,
        };
        lent.grow(PAGE);
        lent
    }

    fn grow(&mut self, bytes: usize) {
        self.unmap();
        self.room = bytes.next_multiple_of(PAGE);
        self.map = reserve(self.room + 2 * PAGE);
        assert!(!self.map.is_null(), "no memory");
        assert!(open(self.start(), self.room), "no memory");
        self.sealed = false;
    }

    fn unmap(&mut self) {
        if !self.map.is_null() {
            // SAFETY: the mapping is ours, and no slice of it is in use.
            unsafe { munmap(self.map.cast(), self.room + 2 * PAGE) };
        }
    }

    fn start(&self) -> *mut u8 {
        self.map.wrapping_add(PAGE)
    }

    fn bytes(&self) -> usize {
        self.len * size_of::<T>()
    }

    fn at(&self) -> *mut u8 {
        match self.side {
            Side::Before => self.start(),
            Side::Behind => self.start().wrapping_add(self.room - self.bytes()),
        }
    }

    /// The bytes beside the slice.
    fn margin(&mut self) -> &mut [u8] {
        let (bytes, n) = (self.bytes(), MARGIN.min(self.room - self.bytes()));
        let from = match self.side {
            Side::Before => self.start().wrapping_add(bytes),
            Side::Behind => self.at().wrapping_sub(n),
        };
        // SAFETY: inside the room, beside the slice.
        unsafe { std::slice::from_raw_parts_mut(from, n) }
    }

    fn place(&mut self, len: usize, side: Side) {
        if self.sealed {
            let (from, bytes) = self.pages();
            assert!(open(from, bytes));
            self.sealed = false;
        }
        let bytes = len * size_of::<T>();
        if bytes > self.room {
            self.grow(bytes.max(2 * self.room));
        }
        (self.len, self.side, self.null) = (len, side, false);
        self.margin().fill(BESIDE);
    }

    /// A slice of so many elements as they are found.
    pub fn lend(&mut self, len: usize, side: Side) -> &mut Lent<T> {
        self.place(len, side);
        for (k, element) in self.slice_mut().iter_mut().enumerate() {
            *element = T::found(k);
        }
        self
    }

    /// A copy of a slice.
    pub fn copy(&mut self, from: &[T], side: Side) -> &mut Lent<T> {
        self.place(from.len(), side);
        self.slice_mut().copy_from_slice(from);
        self
    }

    /// A slice of no elements by a null pointer.
    pub fn as_null(&mut self) {
        self.null = self.len == 0;
    }

    /// It may be read alone, until another is placed.
    pub fn seal(&mut self) {
        let (from, bytes) = self.pages();
        // SAFETY: the room's own pages.
        let done = unsafe { mprotect(from.cast(), bytes, READ) };
        assert_eq!(done, 0);
        self.sealed = true;
    }

    /// The pages of the slice alone: a room may be much larger.
    fn pages(&self) -> (*mut u8, usize) {
        let bytes = self.bytes().next_multiple_of(PAGE);
        match self.side {
            Side::Before => (self.start(), bytes),
            Side::Behind => (self.start().wrapping_add(self.room - bytes), bytes),
        }
    }

    pub fn len(&self) -> usize {
        self.len
    }

    pub fn ptr(&self) -> *const T {
        self.ptr_mut()
    }

    pub fn ptr_mut(&self) -> *mut T {
        if self.null {
            return ptr::null_mut();
        }
        self.at().cast()
    }

    pub fn slice(&self) -> &[T] {
        // SAFETY: inside the room; its start and end are aligned for every element.
        unsafe { std::slice::from_raw_parts(self.at().cast(), self.len) }
    }

    fn slice_mut(&mut self) -> &mut [T] {
        // SAFETY: as above.
        unsafe { std::slice::from_raw_parts_mut(self.at().cast(), self.len) }
    }

    /// From `written` on all is as it was found, and so is what stands beside the slice.
    pub fn untouched_from(&mut self, written: usize, what: &str) -> Result<(), String> {
        let slice = self.slice();
        if written > slice.len() {
            return Err(format!("{what}: {written} written of {} lent", slice.len()));
        }
        let rest = slice.iter().enumerate().skip(written);
        if let Some((k, _)) = rest.clone().find(|&(k, element)| *element != T::found(k)) {
            return Err(format!(
                "{what}: {written} said to be written, and element {k} was"
            ));
        }
        if self.margin().iter().any(|&byte| byte != BESIDE) {
            return Err(format!("{what}: written beside the slice"));
        }
        Ok(())
    }
}

impl<T> Drop for Lent<T> {
    fn drop(&mut self) {
        // SAFETY: as in `unmap`.
        unsafe { munmap(self.map.cast(), self.room + 2 * PAGE) };
    }
}
