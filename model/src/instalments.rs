//! Request A.8 of document 02, "A scan in instalments": the calls on a paused scan and its
//! waiting row, as values.
//!
//! "If the image never changes and the state is the same at both ends, any division into
//! instalments gives the result, total steps and state of the undivided scan": so the
//! scan is worked out when it starts, and instalments count its steps. "For another
//! image, or a paused scan that these calls didn't leave, only safety is owed": neither is
//! in this model.

use crate::check::check_detail;
use crate::machine::{scan, ScanRefusal};

/// The number of an answer "unfinished".
pub const UNFINISHED: u8 = 254;
/// The number of an answer "idle".
pub const IDLE: u8 = 255;

/// The steps, or a refusal, unfinished or idle.
pub type Answer = Result<u32, ScanRefusal>;

/// A paused scan and its waiting row; at first there is neither.
#[derive(Clone, Debug, Default, PartialEq, Eq, Hash)]
pub struct Paused {
    waiting: Option<Vec<i32>>,
    /// The scan that is not over.
    scan: Option<Begun>,
}

#[derive(Clone, Debug, PartialEq, Eq, Hash)]
struct Begun {
    /// The state "lent at the start".
    state: Vec<i32>,
    /// The steps of the undivided scan, "up to and including the refusing instruction".
    steps: u32,
    /// Those done so far.
    done: u32,
    /// The state that the undivided scan leaves, or its refusal.
    end: Result<Vec<i32>, u8>,
}

impl Paused {
    /// Whether there is a scan that is not over.
    pub fn in_progress(&self) -> bool {
        self.scan.is_some()
    }

    /// "At any time a row may be posted: it waits for the next scan, a later one replaces
    /// it, and it has no effect on the scan in progress. Posting is lent the image and
    /// tests 9, 11, then 12 for the row; a refused one replaces nothing."
    pub fn post(&mut self, image: &[u8], row: &[i32]) -> Answer {
        let header = check_detail(image).map_err(ScanRefusal::unsound)?;
        if row.len() != header.row_length() {
            return Err(ScanRefusal::before_code(12));
        }
        self.waiting = Some(row.to_vec());
        Ok(0)
    }

    /// The start of a scan. "A start takes the waiting row and makes the scan's tests
    /// before the code; a refusal there is answered at once, and the scan is over. A start
    /// before the last scan is over answers unfinished; any other without a waiting row
    /// .. idle". A refused start has taken the row.
    pub fn begin(&mut self, image: &[u8], state: &[i32]) -> Answer {
        if self.scan.is_some() {
            return Err(ScanRefusal::before_code(UNFINISHED));
        }
        let row = self.waiting.take();
        let row = row.ok_or(ScanRefusal::before_code(IDLE))?;
        let mut left = state.to_vec();
        let (steps, end) = match scan(image, &mut left, &row) {
            Ok(steps) => (steps, Ok(left)),
            // "0 before the code"
            Err(refusal) if refusal.steps == 0 => return Err(refusal),
            Err(refusal) => (refusal.steps, Err(refusal.number)),
        };
        self.scan = Some(Begun {
            state: state.to_vec(),
            steps,
            done: 0,
            end,
        });
        Ok(0)
    }

    /// An instalment. "A caller gives a number of steps; the scan does that many, or fewer
    /// if it finishes or is refused, and reports how many"; "an instalment or finish
    /// without a scan, answer idle; then nothing moves".
    pub fn advance(&mut self, steps: usize) -> Answer {
        let Some(scan) = &mut self.scan else {
            return Err(ScanRefusal::before_code(IDLE));
        };
        let left = scan.steps - scan.done;
        let now = u32::try_from(steps).map_or(left, |steps| steps.min(left));
        scan.done += now;
        Ok(now)
    }

    /// "A finish too early answers unfinished; after a refusal, that refusal, and the scan
    /// is over." "24 a state at the finish that differs, in length too, from the one at
    /// the start, after unfinished and the scan's own refusal; the scan still awaits its
    /// finish." The finish that ends the scan answers the total steps.
    pub fn finish(&mut self, state: &mut [i32]) -> Answer {
        let Some(scan) = &self.scan else {
            return Err(ScanRefusal::before_code(IDLE));
        };
        let steps = scan.steps;
        if scan.done < steps {
            return Err(ScanRefusal::before_code(UNFINISHED));
        }
        let answer = match &scan.end {
            Err(number) => Err(ScanRefusal {
                number: *number,
                place: 0,
                steps,
            }),
            Ok(_) if *state != scan.state => return Err(ScanRefusal::before_code(24)),
            Ok(left) => {
                state.copy_from_slice(left);
                Ok(steps)
            }
        };
        self.scan = None;
        answer
    }
}
