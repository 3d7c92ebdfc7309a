//! Watches of a text over a trace (document 02, A.13).

use crate::{counted, Refusal};

/// Watches of a text at most, and numbers of a report.
pub const WATCHES: usize = 16;

mod archive {
    extern "C" {
        pub fn rolvenko_watch(
            text: *const u8,
            text_len: usize,
            trace: *const i32,
            trace_len: usize,
            report: *mut i64,
            report_len: usize,
        ) -> u64;
    }
}

/// Where the watches of a text, `watch: G([c]);` and `watch: G([c] -> X([c]));` behind its rules, first fail over a trace: one answer a watch, in text
/// order, a place of the trace (0 the start, of a pair the later one) or none. `trace` has the states in turn, the start first, elapsed
/// times among their numbers. Refusals: 1 to 9, 23, 30, and 12 for a trace without its start or with a cut state.
///
/// ```
/// let text = b"input go 0..1; var run 0..9; run: GX(run = (_run + go)); watch: G([run >= _run]); watch: G([go = 1] -> X([run > _run]));";
/// let trace = [0, 0, 1, 1, 1, 2, 0, 2];
/// assert_eq!(rolvenko::watch(text, &trace)?, [None, Some(3)]);
/// assert_eq!(rolvenko::watch(text, &trace[..3]).unwrap_err().number, 12);
/// # Ok::<(), rolvenko::Refusal>(())
/// ```
pub fn watch(text: &[u8], trace: &[i32]) -> Result<Vec<Option<usize>>, Refusal> {
    let mut report = [0; WATCHES];
    let count = write_report(text, trace, &mut report)?;
    // A place is 0 or above; -1 says that there is none.
    Ok(report[..count].iter().map(|&place| usize::try_from(place).ok()).collect())
}

/// The same as the archive writes it, to the first numbers of a report of [`WATCHES`]: places, and -1 for none; answers their count. A
/// refusal, 12 for a report of another length too, leaves `report` as it was.
pub fn write_report(text: &[u8], trace: &[i32], report: &mut [i64]) -> Result<usize, Refusal> {
    // The function reads `text_len` bytes at `text` and `trace_len` numbers at `trace`, and reads and writes `report_len` numbers at `report`.
    let answer = unsafe {
        archive::rolvenko_watch(text.as_ptr(), text.len(), trace.as_ptr(), trace.len(), report.as_mut_ptr(), report.len())
    };
    counted(answer).map(|count| count as usize)
}
