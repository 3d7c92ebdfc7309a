//! Where long work stands: one line on standard error that is written over, on a terminal only, from the second second on.

use std::io::{self, IsTerminal, Write};
use std::sync::atomic::{AtomicBool, Ordering};
use std::time::{Duration, Instant};

/// How long work goes on before anything is said, and the time between two words.
const QUIET: Duration = Duration::from_secs(1);
const BETWEEN: Duration = Duration::from_millis(250);
/// Rows between two looks at the clock.
const ROWS: u64 = 256;

/// Whether a line stands there that the next word on standard error must take away.
static STANDS: AtomicBool = AtomicBool::new(false);

pub struct Progress {
    shown: bool,
    began: Instant,
    next: Instant,
}

impl Progress {
    /// Nothing is shown where standard error is no terminal, or where results go to one: they show how far it is.
    pub fn new(results_on_output: bool) -> Progress {
        let shown = io::stderr().is_terminal() && !(results_on_output && io::stdout().is_terminal());
        let began = Instant::now();
        Progress { shown, began, next: began + QUIET }
    }

    /// Row `number`, of so many where that is known.
    pub fn row(&mut self, number: u64, of: Option<u64>) {
        if self.shown && number % ROWS == 0 {
            self.say(|seconds| match of {
                Some(all) => format!("row {number} of {all}, {}", left(number, all, seconds)),
                None => format!("row {number}, {seconds} s"),
            });
        }
    }

    /// So many of all the scans.
    pub fn scans(&mut self, done: u64, all: u64) {
        self.say(|seconds| format!("{done} of {all} scans, {}", left(done, all, seconds)));
    }

    /// Writes what there is to say, if it is time for it.
    fn say(&mut self, words: impl FnOnce(u64) -> String) {
        let now = Instant::now();
        if self.shown && now >= self.next {
            self.next = now + BETWEEN;
            let line = words(now.duration_since(self.began).as_secs());
            clear();
            let _ = write!(io::stderr(), "{line}");
            STANDS.store(true, Ordering::Relaxed);
        }
    }
}

impl Drop for Progress {
    fn drop(&mut self) {
        clear();
    }
}

/// The time that is left if it goes on as it went.
fn left(done: u64, all: u64, seconds: u64) -> String {
    let rest = u128::from(seconds) * u128::from(all.saturating_sub(done)) / u128::from(done.max(1));
    format!("{seconds} s, about {rest} s left")
}

/// Takes the line away.
pub fn clear() {
    if STANDS.swap(false, Ordering::Relaxed) {
        let _ = write!(io::stderr(), "\r\x1b[K");
    }
}
