//! The reading call without its zeroing, to measure what that costs. The driver is linked with --wrap=memset, so that every call of
//! memset in it, the library's too, comes to `__wrap_memset`; the library itself stays as it is.

use std::sync::atomic::{AtomicBool, Ordering};

static LEFT_OUT: AtomicBool = AtomicBool::new(false);

extern "C" {
    fn __real_memset(start: *mut u8, byte: i32, length: usize) -> *mut u8;
}

#[no_mangle]
unsafe extern "C" fn __wrap_memset(start: *mut u8, byte: i32, length: usize) -> *mut u8 {
    if LEFT_OUT.load(Ordering::Relaxed) {
        return start;
    }
    __real_memset(start, byte, length)
}

/// A call in which memset does nothing. For one thread at a time.
pub fn left_out<T>(call: impl FnOnce() -> T) -> T {
    LEFT_OUT.store(true, Ordering::Relaxed);
    let result = call();
    LEFT_OUT.store(false, Ordering::Relaxed);
    result
}
