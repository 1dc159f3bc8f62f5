//! Time of this thread, and medians.

#[repr(C)]
struct Timespec {
    seconds: i64,
    nanoseconds: i64,
}

extern "C" {
    fn clock_gettime(clock: i32, now: *mut Timespec) -> i32;
}

/// Milliseconds that this thread has worked (CLOCK_THREAD_CPUTIME_ID of Linux): time given to other programs is not in it.
fn worked() -> f64 {
    let mut t = Timespec {
        seconds: 0,
        nanoseconds: 0,
    };
    assert!(unsafe { clock_gettime(3, &mut t) } == 0);
    t.seconds as f64 * 1e3 + t.nanoseconds as f64 / 1e6
}

/// Milliseconds of `f`.
pub fn clock(f: impl FnOnce()) -> f64 {
    let start = worked();
    f();
    worked() - start
}

pub fn median(mut times: Vec<f64>) -> f64 {
    times.sort_by(f64::total_cmp);
    times[times.len() / 2]
}
