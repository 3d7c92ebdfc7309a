//! Inputs of the closed profile: images with few values, products near the limit, and
//! rules that refuse just one scan.

use super::states::{row_in_range, state_in_range};
use super::text::{text, Shape};
use super::Rng;
use crate::check::Range;
use crate::closed::Combination;
use crate::image::write_image;
use crate::read_text;

/// A rule set of which one scan is refused.
#[derive(Clone, Debug)]
pub struct OneRefused {
    pub text: Vec<u8>,
    pub scan: Combination,
    /// The refusal of that scan, 14 to 17.
    pub number: u8,
}

/// The image of a random accepted text: mostly one with a small product.
pub fn profile_image(rng: &mut Rng) -> Vec<u8> {
    let source = match rng.below(10) {
        0 => text(rng, Shape::WIDE),
        1 => text(rng, Shape::SMALL),
        2..=4 => text(rng, Shape::TINY),
        5..=7 => one_refused(rng).text,
        _ => {
            let (inputs, ranges) = few_values(rng);
            held_text(inputs, &ranges)
        }
    };
    write_image(&read_text(&source).expect("an accepted text"))
}

/// Names with few values, and how many of them are inputs; the last is a variable.
fn few_values(rng: &mut Rng) -> (usize, Vec<Range>) {
    let inputs = rng.below(3);
    let names = inputs + 1 + rng.below(3);
    let ranges = (0..names).map(|_| {
        let low = rng.between(-9, 9) as i32;
        let high = low + *rng.choose(&[0, 1, 1, 2, 3]);
        let start = rng.between(low.into(), high.into()) as i32;
        Range { low, high, start }
    });
    let ranges = ranges.collect();
    (inputs, ranges)
}

/// A text in which every variable keeps its value.
fn held_text(inputs: usize, ranges: &[Range]) -> Vec<u8> {
    let rules: String = (inputs..ranges.len()).map(held_rule).collect();
    (declarations(inputs, ranges) + &rules).into_bytes()
}

fn held_rule(id: usize) -> String {
    format!("n{id}: GX(n{id} = (_n{id}));\n")
}

/// Declares the names `n0`, `n1` and so on.
fn declarations(inputs: usize, ranges: &[Range]) -> String {
    let line = |(id, range): (usize, &Range)| {
        let sort = if id < inputs { "input" } else { "var" };
        let Range { low, high, start } = range;
        format!("{sort} n{id} {low}..{high} init {start};\n")
    };
    ranges.iter().enumerate().map(line).collect()
}

/// A text that refuses the scan of one state and row: a case of one variable holds only
/// there.
pub fn one_refused(rng: &mut Rng) -> OneRefused {
    let (inputs, mut ranges) = few_values(rng);
    let id = inputs + rng.below(ranges.len() - inputs);
    // The variable has another value, so that 15 can come before 16 and 17.
    ranges[id].high = ranges[id].high.max(ranges[id].low + 1);
    let scan = Combination {
        state: state_in_range(rng, &ranges),
        row: row_in_range(rng, &ranges[..inputs]),
    };
    let number = rng.between(14, 17) as u8;
    let Range { low, high, .. } = ranges[id];
    let other = if scan.state[id] == low { high } else { low };
    let values: &[String] = match number {
        14 => &["1 / (_n0 - _n0)".to_owned()],
        15 => &[other.to_string(), "0".to_owned()],
        16 => &[format!("_n{id}")],
        _ => &[format!("{high} + 1")],
    };
    let mut text = declarations(inputs, &ranges);
    for variable in inputs..ranges.len() {
        text += &match variable == id {
            true => change_rule(id, &only(&scan), values),
            false => held_rule(variable),
        };
    }
    OneRefused {
        text: text.into_bytes(),
        scan,
        number,
    }
}

/// A condition that holds for this state and row only.
fn only(scan: &Combination) -> String {
    let previous = scan.state.iter().enumerate();
    let current = scan.row.iter().enumerate();
    let atoms: Vec<String> = previous
        .map(|(id, value)| format!("_n{id} = {value}"))
        .chain(current.map(|(id, value)| format!("n{id} = {value}")))
        .collect();
    atoms.join(" & ")
}

/// A rule with a case for each value, all under one condition.
fn change_rule(id: usize, condition: &str, values: &[String]) -> String {
    let cases: Vec<String> = values
        .iter()
        .map(|value| format!("[{condition}] & n{id} = ({value})"))
        .collect();
    let conditions = vec![format!("[{condition}]"); values.len()];
    format!(
        "n{id}: GX(~(n{id} = _n{id}) -> {});\nn{id}: GX(n{id} = _n{id} -> ~({}));\n",
        cases.join(" | "),
        conditions.join(" | ")
    )
}

/// A closed rule set of up to 64 names whose product is 65,536, or next to it if `exact`
/// is not asked for.
pub fn limit_product(rng: &mut Rng, exact: bool) -> Vec<u8> {
    let inputs = rng.below(5);
    let names = inputs + 1 + rng.below(64 - inputs);
    let mut bits = vec![0; names];
    let mut left = 16;
    while left > 0 {
        let id = rng.below(names);
        // The values of an input count twice.
        let each = if id < inputs { 2 } else { 1 };
        if each <= left {
            bits[id] += 1;
            left -= each;
        }
    }
    let mut sizes: Vec<i64> = bits.iter().map(|&bits| 1 << bits).collect();
    if !exact {
        let id = rng.below(names);
        sizes[id] += *rng.choose(&[-1, -1, 1, 2]);
        sizes[id] = sizes[id].max(1);
    }
    let ranges: Vec<Range> = sizes.iter().map(|&size| of_size(rng, size)).collect();
    let source = held_text(inputs, &ranges);
    write_image(&read_text(&source).expect("an accepted text"))
}

/// A range of so many values, now and then at an end of 32 bits.
fn of_size(rng: &mut Rng, size: i64) -> Range {
    let (least, most) = (i64::from(i32::MIN), i64::from(i32::MAX) - size + 1);
    let low = match rng.below(6) {
        0 => least,
        1 => most,
        2 => rng.between(least, most),
        _ => rng.between(-size, 1),
    };
    let start = rng.between(low, low + size - 1);
    Range {
        low: low as i32,
        high: (low + size - 1) as i32,
        start: start as i32,
    }
}
