//! Request A.1 of document 02, "Local hour of each farm": the inputs `day`, `minute`
//! and `again` of a row, filled from a UTC minute.

use crate::token::same_names;
use crate::{read_text, Refusal};
use std::ops::RangeInclusive;

/// "A farm table holds 1 to 32 entries"
const ENTRIES: RangeInclusive<usize> = 1..=32;
/// "an offset of -720 to 840 minutes"
const OFFSETS: RangeInclusive<i64> = -720..=840;
/// "within 0 to 2,147,483,647": minutes of the table, and the one to be filled.
const MINUTES: RangeInclusive<i64> = 0..=2_147_483_647;
/// "1440 times day plus minute"
const DAY: i64 = 1440;

/// Fills the row from a UTC minute. `table` has the UTC minute and the offset of each
/// entry in turn. "Errors: those of the text given, then 19 a table breaking these
/// limits, 20 a UTC minute to be filled below 0 or over 2,147,483,647, 12."
pub fn clock(text: &[u8], table: &[i64], utc: i64, row: &mut [i32]) -> Result<(), Refusal> {
    let program = read_text(text)?;
    let table = Table::read(table).ok_or(Refusal::new(19, 0))?;
    if !MINUTES.contains(&utc) {
        return Err(Refusal::new(20, 0));
    }
    // A row with timers ends with its milliseconds, which are no input and stay.
    if row.len() != program.row_length() {
        return Err(Refusal::new(12, 0));
    }
    let (day, minute) = table.local(utc);
    // The row has a value for each input, the first of the names: variables are not
    // reached. "All other values of the row stay."
    let inputs = &program.names[..program.inputs];
    for (value, name) in row.iter_mut().zip(inputs) {
        let is = |filled: &str| same_names(name.spelling, filled.as_bytes());
        if is("day") {
            *value = day as i32;
        } else if is("minute") {
            *value = minute as i32;
        } else if is("again") {
            *value = i32::from(table.again(utc));
        }
    }
    Ok(())
}

/// "a UTC minute and an offset"
struct Entry {
    minute: i64,
    offset: i64,
}

/// A farm table within its limits.
struct Table(Vec<Entry>);

impl Table {
    /// The table of these numbers, or None if they break a limit; a minute without its
    /// offset does.
    fn read(numbers: &[i64]) -> Option<Table> {
        let pairs = numbers.chunks_exact(2);
        if !pairs.remainder().is_empty() {
            return None;
        }
        let entries: Vec<Entry> = pairs
            .map(|pair| Entry {
                minute: pair[0],
                offset: pair[1],
            })
            .collect();
        let count = ENTRIES.contains(&entries.len());
        let within = entries
            .iter()
            .all(|entry| MINUTES.contains(&entry.minute) && OFFSETS.contains(&entry.offset));
        // "the minutes strictly rising"
        let rising = entries
            .windows(2)
            .all(|pair| pair[0].minute < pair[1].minute);
        (count && within && rising).then_some(Table(entries))
    }

    /// The offset that holds at a UTC minute: that of the last entry not after it; "the
    /// first offset also holds for all earlier minutes".
    fn offset(&self, utc: i64) -> i64 {
        let begun = self.0.iter().rfind(|entry| entry.minute <= utc);
        begun.unwrap_or(&self.0[0]).offset
    }

    /// Day and minute: "Offset plus UTC minute equals 1440 times day plus minute exactly,
    /// below zero too", the minute from 0 to 1439.
    fn local(&self, utc: i64) -> (i64, i64) {
        let whole = self.offset(utc) + utc;
        (whole.div_euclid(DAY), whole.rem_euclid(DAY))
    }

    /// "`again` is 1 exactly if some earlier UTC minute, one below 0 too, has the same day
    /// and minute." Such a minute is earlier by as much as its offset is greater, and two
    /// offsets lie at most 1560 apart: none before `utc` - 1560 has to be tried.
    fn again(&self, utc: i64) -> bool {
        let now = self.local(utc);
        let widest = OFFSETS.end() - OFFSETS.start();
        (utc - widest..utc).any(|earlier| self.local(earlier) == now)
    }
}
