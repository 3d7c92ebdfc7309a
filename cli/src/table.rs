//! Farm tables (document 02, A.1) from the system's zone database: TZif files (RFC 8536), their part of 64-bit times.

use crate::calendar::{days, stamp};
use crate::posix;
use crate::stop::Stop;
use std::io::Write;
use std::path::{Path, PathBuf};

const DATABASE: &str = "/usr/share/zoneinfo";

/// 1 to 32 entries: the UTC minute from which an offset holds, and the offset in minutes.
pub const ENTRIES: usize = 32;
pub const LOWEST_OFFSET: i64 = -720;
pub const HIGHEST_OFFSET: i64 = 840;
pub const LAST_MINUTE: i64 = 2_147_483_647;

#[derive(Clone, Copy, Debug, PartialEq, Eq)]
pub struct Entry {
    pub minute: i64,
    pub offset: i64,
}

/// A zone's changes of offset, in seconds, rising; first the offset that held before all of them.
#[derive(Clone, Debug, PartialEq, Eq)]
pub struct Zone {
    first: i64,
    changes: Vec<(i64, i64)>,
    /// the rule for times after the last change, as POSIX TZ spells it
    rule: String,
}

/// The zone database's file of a zone's name; no name leads out of the database.
pub fn zone_file(zone: &str) -> Option<PathBuf> {
    let parts: Vec<&str> = zone.split('/').collect();
    if parts.iter().any(|p| p.is_empty() || *p == "." || *p == "..") {
        return None;
    }
    Some(Path::new(DATABASE).join(zone))
}

/// A zone of the database whose name, or last part of it, is the same in another letter case.
fn alike(zone: &str) -> Option<String> {
    let mut folders = vec![String::new()];
    let mut found = Vec::new();
    while let Some(folder) = folders.pop() {
        for entry in std::fs::read_dir(Path::new(DATABASE).join(&folder)).into_iter().flatten().flatten() {
            let name = format!("{folder}{}", entry.file_name().to_string_lossy());
            match entry.path().is_dir() {
                true if folder.is_empty() && matches!(name.as_str(), "posix" | "right") => (),
                true => folders.push(name + "/"),
                false => found.push(name),
            }
        }
    }
    found.sort();
    let last = |name: &str| name.rsplit('/').next().unwrap_or("").replace('_', " ");
    let whole = found.iter().find(|n| n.eq_ignore_ascii_case(zone));
    whole.or_else(|| found.iter().find(|n| last(n).eq_ignore_ascii_case(&last(zone)))).cloned()
}

fn long(bytes: &[u8], at: usize) -> Option<usize> {
    let part: [u8; 4] = bytes.get(at..at + 4)?.try_into().ok()?;
    Some(u32::from_be_bytes(part) as usize)
}

/// The six counts of a header, and the place behind it.
fn header(bytes: &[u8], at: usize) -> Option<([usize; 6], usize)> {
    if bytes.get(at..at + 4)? != b"TZif" {
        return None;
    }
    let mut counts = [0; 6];
    for (i, count) in counts.iter_mut().enumerate() {
        *count = long(bytes, at + 20 + 4 * i)?;
    }
    Some((counts, at + 44))
}

impl Zone {
    /// A file of version 2 or later; anything else is none.
    pub fn read(bytes: &[u8]) -> Option<Zone> {
        let ([utc, standard, leap, times, types, letters], at) = header(bytes, 0)?;
        // the first part has times of 32 bits: it is passed over
        let at = at + times * 5 + types * 6 + letters + leap * 8 + standard + utc;
        let ([utc, standard, leap, times, types, letters], at) = header(bytes, at)?;
        let kinds = at + times * 8;
        let offsets = kinds + times;
        let offset = |kind: usize| -> Option<i64> {
            let part: [u8; 4] = bytes.get(offsets + 6 * kind..)?.get(..4)?.try_into().ok()?;
            Some(i64::from(i32::from_be_bytes(part)))
        };
        let mut changes = Vec::new();
        for i in 0..times {
            let part: [u8; 8] = bytes.get(at + 8 * i..)?.get(..8)?.try_into().ok()?;
            let kind = usize::from(*bytes.get(kinds + i)?);
            changes.push((i64::from_be_bytes(part), offset(kind)?));
        }
        let foot = offsets + types * 6 + letters + leap * 12 + standard + utc;
        let rule = String::from_utf8_lossy(bytes.get(foot..)?).trim_matches('\n').to_owned();
        Some(Zone { first: offset(0)?, changes, rule })
    }
}

/// Why a zone has no table for a span of years.
#[derive(Clone, Debug, PartialEq, Eq)]
pub enum NoTable {
    /// more changes than a table has entries
    TooMany(usize),
    /// seconds east of UTC that are no whole minutes, or outside −720 to 840 minutes, from this UTC second on
    Offset(i64, i64),
    /// a change that is no whole minute, or outside 0 to 2,147,483,647
    Minute(i64),
    /// the rule at the end of the file is not understood
    Rule(String),
}

impl Zone {
    /// The entries for the years from `first` to `last`: the offset that holds as they begin, and each change of offset in them.
    pub fn table(&self, first: i64, last: i64) -> Result<Vec<Entry>, NoTable> {
        let begin = days(first, 1, 1) * 86_400;
        let end = days(last + 1, 1, 1) * 86_400;
        let known = self.changes.last().map_or(i64::MIN, |c| c.0);
        let mut changes = self.changes.clone();
        if end > known && !self.rule.is_empty() {
            let rule = posix::Rule::parse(&self.rule).ok_or_else(|| NoTable::Rule(self.rule.clone()))?;
            // the years from the last one known, so that the offset as the span begins is there
            let from = changes.last().map_or(first - 1, |_| (known.div_euclid(86_400 * 366) + 1970).min(first - 1));
            changes.extend((from..=last).flat_map(|y| rule.changes(y)).filter(|c| c.0 > known));
        }
        let held = changes.iter().take_while(|c| c.0 <= begin).last().map_or(self.first, |c| c.1);
        let mut entries = vec![entry(begin.max(0), held)?];
        let mut last = held;
        for (second, offset) in changes.into_iter().filter(|c| begin < c.0 && c.0 < end) {
            // a file also tells changes of a zone's abbreviation alone
            if offset != last {
                entries.push(entry(second, offset)?);
                last = offset;
            }
        }
        match entries.len() {
            n if n > ENTRIES => Err(NoTable::TooMany(n)),
            _ => Ok(entries),
        }
    }
}

fn entry(second: i64, offset: i64) -> Result<Entry, NoTable> {
    if offset % 60 != 0 || !(LOWEST_OFFSET..=HIGHEST_OFFSET).contains(&(offset / 60)) {
        return Err(NoTable::Offset(offset, second));
    }
    if second % 60 != 0 || !(0..=LAST_MINUTE).contains(&(second / 60)) {
        return Err(NoTable::Minute(second));
    }
    Ok(Entry { minute: second / 60, offset: offset / 60 })
}

/// `table`: an entry a line, with its UTC time behind a `#`.
pub fn print(zone: &str, from: i64, to: i64) -> Result<(), Stop> {
    let unknown = || {
        let meant = alike(zone).map_or(String::new(), |z| format!("; is {z} meant?"));
        Stop::Failed(format!("no zone {zone} in the zone database ({DATABASE}){meant}"))
    };
    let path = zone_file(zone).ok_or_else(unknown)?;
    let bytes = std::fs::read(&path).map_err(|_| unknown())?;
    let read = Zone::read(&bytes).ok_or_else(|| Stop::Failed(format!("{}: no TZif file of version 2 or later", path.display())))?;
    if !(1970..=6052).contains(&from) || !(from..=6052).contains(&to) {
        return Err(Stop::Failed("years go from 1970 to 6052, the first not after the last".to_owned()));
    }
    let entries = read.table(from, to).map_err(|why| Stop::Failed(format!("{zone}, {from} to {to}: {}", words(&why))))?;
    let mut out = std::io::stdout().lock();
    for entry in entries {
        writeln!(out, "{} {}  # {}", entry.minute, entry.offset, stamp(entry.minute * 60))?;
    }
    Ok(())
}

fn words(why: &NoTable) -> String {
    match why {
        NoTable::TooMany(n) => format!("{n} entries, and a farm table has at most {ENTRIES}; ask for fewer years"),
        NoTable::Offset(offset, second) => {
            format!("the offset from {} on is {offset} seconds; a farm table has whole minutes from {LOWEST_OFFSET} to {HIGHEST_OFFSET}", stamp(*second))
        }
        NoTable::Minute(second) => format!("the change at {} is no minute of a farm table", stamp(*second)),
        NoTable::Rule(rule) => format!("the rule `{rule}` for later years is not understood"),
    }
}
