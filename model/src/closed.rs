//! Request A.10 of document 02, "Closed profile": "Team leads want rule sets that can
//! never stop in service."

use crate::check::{check_detail, Range};
use crate::machine::scan;
use crate::Refusal;

/// "The product of all range sizes times the product of the input range sizes must be at
/// most 65,536."
const MOST_SCANS: u64 = 65_536;

/// What one scan of the walk is given.
#[derive(Clone, Debug, PartialEq, Eq)]
pub struct Combination {
    pub state: Vec<i32>,
    pub row: Vec<i32>,
}

/// A rule set that is not accepted. The place of a 27 counts the scans before the refused
/// one; `scan` is there for 27 alone: "27 with the state and row of the refused scan".
#[derive(Clone, Debug, PartialEq, Eq)]
pub struct NotClosed {
    pub refusal: Refusal,
    pub scan: Option<Combination>,
}

/// "A set is accepted exactly if no such scan is refused". "Errors: 26 a timer or too
/// large a product, after 9 and 11; 27 with the state and row of the refused scan."
pub fn closed(image: &[u8]) -> Result<(), NotClosed> {
    let profile = Profile::read(image).map_err(|refusal| NotClosed {
        refusal,
        scan: None,
    })?;
    let mut before = 0;
    // "Rows are tried inside states, and the walk ends at the first scan that is refused"
    for state in every(&profile.names) {
        for row in every(profile.inputs()) {
            if scan(image, &mut state.clone(), &row).is_err() {
                return Err(NotClosed {
                    refusal: Refusal::new(27, before),
                    scan: Some(Combination { state, row }),
                });
            }
            before += 1;
        }
    }
    Ok(())
}

/// The same of a part of the walk: "those before which `first`, first + 1, .. scans stand,
/// at most `most` of them; behind the last there are none".
pub fn closed_part(image: &[u8], first: usize, most: usize) -> Result<(), Refusal> {
    let profile = Profile::read(image)?;
    let rows = || every(profile.inputs());
    let walk = every(&profile.names).flat_map(|state| rows().map(move |row| (state.clone(), row)));
    for (before, (mut state, row)) in walk.enumerate().skip(first).take(most) {
        // "place of a 27 counts the scans from the first of all"
        scan(image, &mut state, &row).map_err(|_| Refusal::new(27, before))?;
    }
    Ok(())
}

/// State and row of the scan that `index` scans of the whole walk come before; 12 where
/// there are not so many, after 9, 11 and 26.
pub fn combination(image: &[u8], index: u32) -> Result<Combination, Refusal> {
    let profile = Profile::read(image)?;
    let mut rest = u64::from(index);
    if rest >= profile.scans {
        return Err(Refusal::new(12, 0));
    }
    // The row moves faster than the state.
    let row = take_digits(profile.inputs(), &mut rest);
    let state = take_digits(&profile.names, &mut rest);
    Ok(Combination { state, row })
}

/// The same, written to what is lent: "12 state or row of wrong length" too.
pub fn write_combination(
    image: &[u8],
    index: u32,
    state: &mut [i32],
    row: &mut [i32],
) -> Result<(), Refusal> {
    let found = combination(image, index)?;
    if state.len() != found.state.len() || row.len() != found.row.len() {
        return Err(Refusal::new(12, 0));
    }
    state.copy_from_slice(&found.state);
    row.copy_from_slice(&found.row);
    Ok(())
}

/// The ranges of a sound image whose walk is not too long.
struct Profile {
    names: Vec<Range>,
    count_of_inputs: usize,
    scans: u64,
}

impl Profile {
    /// Tests 9, 11, then 26.
    fn read(image: &[u8]) -> Result<Profile, Refusal> {
        let header = check_detail(image).map_err(|fault| fault.refusal())?;
        let names = header.ranges().to_vec();
        let sizes = names.iter().chain(&names[..header.inputs]).map(size);
        // "26 a timer or too large a product, after 9 and 11"
        let timed = !header.timers.is_empty();
        let scans = product(sizes)
            .filter(|_| !timed)
            .ok_or(Refusal::new(26, 0))?;
        Ok(Profile {
            names,
            count_of_inputs: header.inputs,
            scans,
        })
    }

    fn inputs(&self) -> &[Range] {
        &self.names[..self.count_of_inputs]
    }
}

/// How many values a name may have.
fn size(range: &Range) -> u64 {
    (i64::from(range.high) - i64::from(range.low) + 1) as u64
}

/// The product, or None if it is over the limit: sizes are at least 1, so a product once
/// over it stays so.
fn product(mut sizes: impl Iterator<Item = u64>) -> Option<u64> {
    sizes.try_fold(1, |product, size| {
        Some(product * size).filter(|&product| product <= MOST_SCANS)
    })
}

/// Every list of values in these ranges: "the last declared name moves fastest in both,
/// from low to high".
fn every(ranges: &[Range]) -> impl Iterator<Item = Vec<i32>> + '_ {
    let lows = ranges.iter().map(|range| range.low).collect();
    std::iter::successors(Some(lows), |values: &Vec<i32>| following(ranges, values))
}

/// The list after this one, or None after the last: the last name that is below its high
/// moves, and all behind it are back at their lows.
fn following(ranges: &[Range], values: &[i32]) -> Option<Vec<i32>> {
    let moves = (0..ranges.len()).rfind(|&id| values[id] < ranges[id].high)?;
    let mut next = values.to_vec();
    next[moves] += 1;
    for (value, range) in next.iter_mut().zip(ranges).skip(moves + 1) {
        *value = range.low;
    }
    Some(next)
}

/// One value for each range, the last from the lowest digit of `rest`, a digit having as
/// many values as its range.
fn take_digits(ranges: &[Range], rest: &mut u64) -> Vec<i32> {
    let mut values = Vec::new();
    for range in ranges.iter().rev() {
        values.push((i64::from(range.low) + (*rest % size(range)) as i64) as i32);
        *rest /= size(range);
    }
    values.reverse();
    values
}
