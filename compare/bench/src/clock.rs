//! CPU time of this thread.

use std::hint::black_box;

#[repr(C)]
struct Time {
    seconds: i64,
    nanoseconds: i64,
}

unsafe extern "C" {
    fn clock_gettime(clock: i32, time: *mut Time) -> i32;
}

/// The number that Linux has for the CPU time of a thread.
const THREAD: i32 = 3;

fn now() -> f64 {
    let mut time = Time { seconds: 0, nanoseconds: 0 };
    // The pointer is to a struct of the C library's layout, which the call fills.
    let done = unsafe { clock_gettime(THREAD, &mut time) };
    assert_eq!(done, 0, "the clock of this thread");
    time.seconds as f64 * 1e9 + time.nanoseconds as f64
}

/// The nanoseconds of one run of each side: the least of `runs`, taken in turn. Both sides must answer the same.
pub fn both<T: PartialEq + std::fmt::Debug>(runs: u32, mut original: impl FnMut() -> T, mut port: impl FnMut() -> T) -> (f64, f64) {
    let mut least = (f64::INFINITY, f64::INFINITY);
    for _ in 0..runs {
        let start = now();
        let a = black_box(original());
        let middle = now();
        let b = black_box(port());
        let end = now();
        assert_eq!(a, b, "both sides answer the same");
        least = (least.0.min(middle - start), least.1.min(end - middle));
    }
    least
}
