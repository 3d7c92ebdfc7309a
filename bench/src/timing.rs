//! Processor time of this thread, so that what else the machine does counts little.

use std::ffi::c_int;

#[repr(C)]
struct Time {
    seconds: i64,
    nanoseconds: i64,
}

extern "C" {
    fn clock_gettime(clock: c_int, time: *mut Time) -> c_int;
}

/// In seconds.
fn now() -> f64 {
    let mut time = Time {
        seconds: 0,
        nanoseconds: 0,
    };
    // 3 is CLOCK_THREAD_CPUTIME_ID on Linux.
    assert_eq!(unsafe { clock_gettime(3, &mut time) }, 0);
    time.seconds as f64 + time.nanoseconds as f64 * 1e-9
}

/// The least time of a call over the rounds so far.
#[derive(Default)]
pub struct Least {
    calls: u32,
    pub seconds: f64,
}

impl Least {
    /// One round of calls, of about 5 ms; the first one finds how many these are.
    pub fn round(&mut self, run: &mut dyn FnMut()) {
        if self.calls == 0 {
            self.calls = 1;
            while seconds(self.calls, run) < 0.005 {
                self.calls *= 2;
            }
            self.seconds = f64::MAX;
        }
        self.seconds = self.seconds.min(seconds(self.calls, run) / f64::from(self.calls));
    }
}

/// Seconds that `calls` calls take.
fn seconds(calls: u32, run: &mut dyn FnMut()) -> f64 {
    let start = now();
    for _ in 0..calls {
        run();
    }
    now() - start
}
