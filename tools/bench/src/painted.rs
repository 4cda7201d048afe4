//! How deep a call goes: the stack of a thread is painted before it, and looked through afterwards.

use std::ffi::{c_int, c_void};
use std::hint::black_box;

/// The stack of the thread, and what is left unpainted at its end and below the caller's frame.
const STACK: usize = 8 << 20;
const MARGIN: usize = 64 << 10;
const FRAME: usize = 4096;

const PAINT: u64 = 0x9e37_79b9_7f4a_7c15;

/// glibc's pthread_attr_t of x86-64.
#[repr(C, align(8))]
struct Attributes([u8; 56]);

unsafe extern "C" {
    fn pthread_self() -> usize;
    fn pthread_getattr_np(thread: usize, attributes: *mut Attributes) -> c_int;
    fn pthread_attr_getstack(
        attributes: *const Attributes,
        start: *mut *mut c_void,
        size: *mut usize,
    ) -> c_int;
    fn pthread_attr_destroy(attributes: *mut Attributes) -> c_int;
}

/// The lowest address of this thread's stack.
fn lowest() -> usize {
    let mut attributes = Attributes([0; 56]);
    let (mut start, mut size) = (std::ptr::null_mut(), 0);
    // SAFETY: the thread is this one, and the attributes are destroyed once.
    let answers = unsafe {
        let got = pthread_getattr_np(pthread_self(), &mut attributes);
        let told = pthread_attr_getstack(&attributes, &mut start, &mut size);
        [got, told, pthread_attr_destroy(&mut attributes)]
    };
    assert_eq!(answers, [0; 3], "the stack of a thread");
    start as usize
}

/// Paints, runs, and looks for the lowest word that has other paint; how far it is below.
#[inline(never)]
fn below(run: &mut dyn FnMut()) -> usize {
    let mark = 0_u64;
    let here = black_box(&raw const mark) as usize;
    let (low, high) = (lowest() + MARGIN, here - FRAME);
    for at in (low..high).step_by(8) {
        // SAFETY: free stack of this thread, below every frame.
        unsafe { (at as *mut u64).write_volatile(PAINT) };
    }
    run();
    let other = |at: &usize| {
        // SAFETY: as above.
        unsafe { (*at as *const u64).read_volatile() != PAINT }
    };
    here - (low..high).step_by(8).find(other).unwrap_or(high)
}

/// The bytes of stack that a call touches, to some 4 KiB, on a thread of its own.
pub fn stack(mut run: impl FnMut() + Send) -> usize {
    std::thread::scope(|scope| {
        let thread = std::thread::Builder::new().stack_size(STACK);
        let spawned = thread.spawn_scoped(scope, move || below(&mut run));
        spawned.expect("a thread").join().expect("no panic")
    })
}
