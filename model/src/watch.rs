//! Request A.13 of document 02, "Watch formulas": "Operators want the farm's own promises
//! watched as it runs."

use crate::charge::states;
use crate::formula::condition_holds;
use crate::program::{Condition, Watch};
use crate::{read_text, Refusal, WATCHES};

/// What a report holds for a watch that hasn't failed.
pub const NEVER: i64 = -1;

/// "From a text and a trace lent as in A.12 each, in text order, reports the trace place, 0
/// the start, where it first failed, or that it hasn't" (None). "Errors: .. after the text's,
/// 12 as in A.12."
pub fn watch(text: &[u8], trace: &[i32]) -> Result<Vec<Option<usize>>, Refusal> {
    let program = read_text(text)?;
    let states = states(trace, program.state_length()).ok_or(Refusal::new(12, 0))?;
    let places = places(&states);
    let watches = program.watches.iter();
    Ok(watches.map(|watch| first_failure(watch, &places)).collect())
}

/// The same, written to the first numbers of a report of 16; a report of another length is
/// 12. Answers the count of watches.
pub fn write_report(text: &[u8], trace: &[i32], report: &mut [i64]) -> Result<usize, Refusal> {
    let failures = watch(text, trace)?;
    if report.len() != WATCHES {
        return Err(Refusal::new(12, 0));
    }
    for (number, failure) in report.iter_mut().zip(&failures) {
        *number = failure.map_or(NEVER, |place| place as i64);
    }
    Ok(failures.len())
}

/// A place of the trace with the values of the place before.
struct Place {
    previous: Vec<i64>,
    current: Vec<i64>,
}

impl Place {
    /// Whether a condition holds here; None where it meets 14.
    fn worth(&self, condition: &Condition) -> Option<bool> {
        condition_holds(condition, &self.previous, &self.current)
    }
}

/// "At the start every previous value equals the current one."
fn places(states: &[&[i32]]) -> Vec<Place> {
    let wide = |state: &[i32]| -> Vec<i64> { state.iter().map(|&value| value.into()).collect() };
    let before = |index: usize| states[index.saturating_sub(1)];
    let place = |(index, state): (usize, &&[i32])| Place {
        previous: wide(before(index)),
        current: wide(state),
    };
    states.iter().enumerate().map(place).collect()
}

/// "The first kind must hold at the start and after each accepted scan, the second over each
/// neighbouring pair"; "for a pair the later one" is reported.
fn first_failure(watch: &Watch, places: &[Place]) -> Option<usize> {
    match &watch.then {
        // "a watch fails where one meets 14"
        None => places
            .iter()
            .position(|place| place.worth(&watch.first) != Some(true)),
        Some(then) => places
            .windows(2)
            .position(|pair| !leads(pair[0].worth(&watch.first), pair[1].worth(then)))
            .map(|earlier| earlier + 1),
    }
}

/// "A pair's two conditions are both worked out".
fn leads(first: Option<bool>, then: Option<bool>) -> bool {
    match (first, then) {
        (Some(first), Some(then)) => !first || then,
        _ => false,
    }
}
