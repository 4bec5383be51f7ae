//! What the C library tells of this process: processor time and memory.

#[repr(C)]
#[derive(Default)]
struct Timespec {
    seconds: i64,
    nanoseconds: i64,
}

#[repr(C)]
struct Mallinfo {
    fields: [usize; 10],
}

extern "C" {
    fn clock_gettime(clock: i32, time: *mut Timespec) -> i32;
    fn mallinfo2() -> Mallinfo;
}

/// Seconds that this thread has run, in its own code and in the kernel for it.
pub fn seconds() -> f64 {
    const OF_THIS_THREAD: i32 = 3;
    let mut time = Timespec::default();
    assert_eq!(unsafe { clock_gettime(OF_THIS_THREAD, &mut time) }, 0, "a clock");
    time.seconds as f64 + time.nanoseconds as f64 / 1e9
}

/// Bytes of the heap in use: in blocks mapped on their own, and in the others.
pub fn in_use() -> usize {
    let account = unsafe { mallinfo2() };
    account.fields[4] + account.fields[7]
}
