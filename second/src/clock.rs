//! The clock of the benchmark: the time that the processor gave this program. What other programs take of the machine
//! meanwhile, the wall clock counts and this one doesn't. The standard library has no such clock, the C library has.
//!
//! A library that is asked over pipes runs in a program of its own, whose time only the wall clock shows.

use std::time::Duration;

#[cfg(served)]
pub const NAME: &str = "wall time";
#[cfg(not(served))]
pub const NAME: &str = "processor time";

/// The time since some moment, always the same one.
#[cfg(served)]
pub fn now() -> Duration {
    use std::time::SystemTime;
    SystemTime::UNIX_EPOCH.elapsed().expect("a time after 1970")
}

/// The time since some moment, always the same one.
#[cfg(not(served))]
pub fn now() -> Duration {
    use std::ffi::{c_int, c_long};

    /// `struct timespec`
    #[repr(C)]
    struct Time {
        seconds: c_long,
        nanoseconds: c_long,
    }

    unsafe extern "C" {
        fn clock_gettime(clock: c_int, time: *mut Time) -> c_int;
    }

    /// `CLOCK_PROCESS_CPUTIME_ID`
    const OF_THIS_PROGRAM: c_int = if cfg!(target_os = "macos") { 12 } else { 2 };

    let mut time = Time { seconds: 0, nanoseconds: 0 };
    // The call writes the one struct that it is lent.
    let status = unsafe { clock_gettime(OF_THIS_PROGRAM, &mut time) };
    assert_eq!(status, 0, "there is a clock of processor time");
    let whole = |number: c_long| u64::try_from(number).expect("a time");
    Duration::from_secs(whole(time.seconds)) + Duration::from_nanos(whole(time.nanoseconds))
}

/// Microseconds for one of so many calls.
pub fn microseconds(calls: usize, mut call: impl FnMut()) -> f64 {
    let start = now();
    for _ in 0..calls {
        call();
    }
    (now() - start).as_secs_f64() * 1e6 / calls as f64
}

#[cfg(test)]
mod tests {
    use super::now;
    use std::hint::black_box;

    #[test]
    fn work_takes_time() {
        let start = now();
        let mut sum = 0u64;
        while now() == start {
            sum = black_box(sum + 1);
        }
        assert!(now() > start);
    }
}
