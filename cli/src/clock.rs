//! Local time for rows (document 02, A.1): a farm table from a file, and what looks wrong with one that is refused.

use crate::advice::refused;
use crate::farm::Farm;
use crate::stop::{tell, Stop};
use crate::table::{ENTRIES, HIGHEST_OFFSET, LAST_MINUTE, LOWEST_OFFSET};
use crate::text::count;
use rolvenko::meaning;
use std::fs::File;
use std::io::Read;
use std::path::{Path, PathBuf};

/// A farm table, the UTC minute of the first row, and the minutes from row to row.
pub struct Clock {
    pub path: PathBuf,
    table: Vec<i64>,
    first: i64,
    every: i64,
}

impl Clock {
    /// Numbers with white space between them; what stands behind a `#` is passed over to the end of the line.
    pub fn read(path: &Path, first: i64, every: i64) -> Result<Clock, Stop> {
        let mut bytes = Vec::new();
        let most = 1 << 16;
        let read = File::open(path).and_then(|f| f.take(most).read_to_end(&mut bytes)).map_err(|e| Stop::file(path, e))?;
        if read as u64 == most {
            return Err(Stop::file(path, "too long for a farm table"));
        }
        let text = String::from_utf8_lossy(&bytes);
        let words = text.lines().map(|l| l.split('#').next().unwrap_or("")).flat_map(str::split_whitespace);
        let number = |w: &str| w.parse().map_err(|_| Stop::file(path, format!("`{}` is no number of a farm table", w.escape_debug())));
        let table = words.map(number).collect::<Result<_, _>>()?;
        Ok(Clock { path: path.to_owned(), table, first, every })
    }

    /// Fills `day`, `minute` and `again` of row `number`, which has the right length.
    pub fn fill(&self, farm: &Farm, number: u64, row: &mut [i32]) -> Result<(), Stop> {
        let before = i64::try_from(number.saturating_sub(1)).unwrap_or(i64::MAX);
        let minute = self.first.saturating_add(before.saturating_mul(self.every));
        rolvenko::clock(&farm.text, &self.table, minute, row).map_err(|refusal| {
            let (at, what) = match refusal.number {
                19 => (self.path.display().to_string(), looks_wrong(&self.table)),
                20 => (format!("row {}", number.max(1)), format!("its UTC minute is {minute}")),
                number => (farm.path.display().to_string(), meaning(number).to_owned()),
            };
            tell(&refused(&at, refusal.number, &what));
            Stop::Refused
        })
    }
}

/// What of a table that is refused looks wrong.
fn looks_wrong(table: &[i64]) -> String {
    let entries: Vec<(i64, i64)> = table.chunks_exact(2).map(|e| (e[0], e[1])).collect();
    let falls = entries.windows(2).position(|e| e[1].0 <= e[0].0);
    let wide = entries.iter().position(|e| !(LOWEST_OFFSET..=HIGHEST_OFFSET).contains(&e.1));
    let outside = entries.iter().position(|e| !(0..=LAST_MINUTE).contains(&e.0));
    match (table.len(), outside, wide, falls) {
        (0, ..) => "the farm table is empty".to_owned(),
        (n, ..) if n % 2 == 1 => format!("{}, and an entry of a farm table has two", count(n, "number")),
        (_, Some(i), ..) => format!("entry {}: no such minute: {}", i + 1, entries[i].0),
        (_, _, Some(i), _) => format!("entry {}: no such offset: {}", i + 1, entries[i].1),
        (_, _, _, Some(i)) => format!("entry {}: minute {} does not come after {}", i + 2, entries[i + 1].0, entries[i].0),
        _ if entries.len() > ENTRIES => format!("{} entries", entries.len()),
        _ => meaning(19).to_owned(),
    }
}
