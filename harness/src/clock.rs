//! Processor time: what other programs take does not count.

/// `which` is 2 for the whole process, 3 for this thread (Linux). Nanoseconds.
fn read(which: i32) -> f64 {
    #[repr(C)]
    struct Timespec {
        seconds: i64,
        nanoseconds: i64,
    }
    extern "C" {
        fn clock_gettime(clock: i32, time: *mut Timespec) -> i32;
    }
    let mut time = Timespec { seconds: 0, nanoseconds: 0 };
    // SAFETY: the C library that Rust's own library links; it fills `time`, which lives on
    assert_eq!(unsafe { clock_gettime(which, &mut time) }, 0);
    time.seconds as f64 * 1e9 + time.nanoseconds as f64
}

pub fn process() -> f64 {
    read(2)
}

pub fn thread() -> f64 {
    read(3)
}
