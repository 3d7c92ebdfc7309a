//! States, rows and inputs of the trace program.

use super::timers::{elapsed, is_elapsed, is_milliseconds, milliseconds};
use super::Rng;
use crate::check::Range;

/// A signed 32-bit number, often a small one or one at the limits.
pub fn any_number(rng: &mut Rng) -> i32 {
    match rng.below(6) {
        0 => i32::MIN,
        1 => i32::MAX,
        2 => rng.bits() as i32,
        _ => rng.between(-3, 3) as i32,
    }
}

fn in_range(rng: &mut Rng, range: &Range) -> i32 {
    if is_milliseconds(range) {
        return milliseconds(rng);
    }
    if is_elapsed(range) {
        return elapsed(rng, range.high);
    }
    match rng.below(4) {
        0 => range.low,
        1 => range.high,
        _ => rng.between(range.low.into(), range.high.into()) as i32,
    }
}

/// A value next to the range or far outside, or in it if nothing else is there.
fn outside(rng: &mut Rng, range: &Range) -> i32 {
    let value = match rng.below(4) {
        0 => range.low.wrapping_sub(1),
        1 => range.high.wrapping_add(1),
        _ => any_number(rng),
    };
    if range.holds(value) && range.high < i32::MAX {
        return range.high + 1;
    }
    value
}

/// A state with every value in its range.
pub fn state_in_range(rng: &mut Rng, ranges: &[Range]) -> Vec<i32> {
    ranges.iter().map(|range| in_range(rng, range)).collect()
}

/// A row with every value in its range; `ranges` are those of the row.
pub fn row_in_range(rng: &mut Rng, ranges: &[Range]) -> Vec<i32> {
    state_in_range(rng, ranges)
}

/// A state: mostly in range, else with a value outside or of the wrong length.
pub fn state(rng: &mut Rng, ranges: &[Range]) -> Vec<i32> {
    let mut values = state_in_range(rng, ranges);
    match rng.below(10) {
        0 | 1 if !values.is_empty() => {
            let at = rng.below(values.len());
            values[at] = outside(rng, &ranges[at]);
        }
        2 => wrong_length(rng, &mut values),
        _ => {}
    }
    values
}

/// A row: mostly in range, else with an input outside or of the wrong length.
pub fn row(rng: &mut Rng, ranges: &[Range]) -> Vec<i32> {
    state(rng, ranges)
}

fn wrong_length(rng: &mut Rng, values: &mut Vec<i32>) {
    if !values.is_empty() && rng.chance(50) {
        values.pop();
    } else {
        values.push(any_number(rng));
    }
}

/// An input of the trace program: the text, `#`, then rows, some of them ill-formed.
pub fn trace_input(rng: &mut Rng, text: &[u8], ranges: &[Range], rows: usize) -> Vec<u8> {
    let mut input = text.to_vec();
    input.extend_from_slice(b"\n#\n");
    for _ in 0..rng.below(rows + 1) {
        let fields: Vec<String> = row(rng, ranges)
            .iter()
            .map(|value| value.to_string())
            .collect();
        let mut line = fields.join(" ");
        if rng.chance(10) {
            let extra = *rng.choose(&[" ", "\r", "+1", "-", "#", "x", " 2147483648", "\t", " -0"]);
            line.push_str(extra);
        }
        input.extend_from_slice(line.as_bytes());
        input.push(b'\n');
    }
    if rng.chance(30) {
        input.pop();
    }
    input
}
