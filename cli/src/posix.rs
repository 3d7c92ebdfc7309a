//! The rule at the end of a TZif file for times after its last change, as POSIX TZ spells it: `CET-1CEST,M3.5.0,M10.5.0/3`.

use crate::calendar::days;

fn is_leap(year: i64) -> bool {
    days(year + 1, 1, 1) - days(year, 1, 1) == 366
}

/// The day on which a change falls each year.
#[derive(Clone, Copy, Debug, PartialEq, Eq)]
enum Day {
    /// 1 to 365; 29 February is never counted
    Julian(i64),
    /// 0 to 365
    Counted(i64),
    /// month, week (5: the last), day of the week from Sunday
    Week(i64, i64, i64),
}

#[derive(Clone, Copy, Debug, PartialEq, Eq)]
struct Change {
    day: Day,
    /// seconds of local time
    time: i64,
}

/// Offsets in seconds east of UTC; the changes to the second one and back, if there are any.
#[derive(Clone, Copy, Debug, PartialEq, Eq)]
pub struct Rule {
    pub standard: i64,
    summer: Option<(i64, Change, Change)>,
}

impl Change {
    /// The local second of a year at which it falls, counted from 1 January 1970.
    fn second(&self, year: i64) -> i64 {
        let first = days(year, 1, 1);
        let day = match self.day {
            Day::Julian(n) => first + n - 1 + i64::from(is_leap(year) && n >= 60),
            Day::Counted(n) => first + n,
            Day::Week(month, week, weekday) => {
                let start = days(year, month, 1);
                let next = if month == 12 { days(year + 1, 1, 1) } else { days(year, month + 1, 1) };
                // 1 January 1970 was a Thursday
                let sooner = start + (weekday - (start + 4)).rem_euclid(7);
                (1..week).fold(sooner, |d, _| if d + 7 < next { d + 7 } else { d })
            }
        };
        day * 86_400 + self.time
    }
}

impl Rule {
    pub fn parse(text: &str) -> Option<Rule> {
        let rest = after_name(text)?;
        let (west, rest) = time(rest)?;
        let standard = -west;
        if rest.is_empty() {
            return Some(Rule { standard, summer: None });
        }
        let rest = after_name(rest)?;
        let (east, rest) = match rest.starts_with(',') {
            true => (standard + 3600, rest),
            false => time(rest).map(|(west, rest)| (-west, rest))?,
        };
        let (begins, rest) = change(rest.strip_prefix(',')?)?;
        let (ends, rest) = change(rest.strip_prefix(',')?)?;
        rest.is_empty().then_some(Rule { standard, summer: Some((east, begins, ends)) })
    }

    /// The changes of a year in turn: the UTC second and the offset from then on.
    pub fn changes(&self, year: i64) -> Vec<(i64, i64)> {
        let Some((summer, begins, ends)) = self.summer else {
            return Vec::new();
        };
        let mut both = vec![(begins.second(year) - self.standard, summer), (ends.second(year) - summer, self.standard)];
        both.sort();
        both
    }
}

/// What stands behind a zone's abbreviation, letters or anything in `< >`.
fn after_name(text: &str) -> Option<&str> {
    if let Some(rest) = text.strip_prefix('<') {
        return rest.split_once('>').map(|(_, rest)| rest);
    }
    let rest = text.trim_start_matches(|c: char| c.is_ascii_alphabetic());
    (rest.len() < text.len()).then_some(rest)
}

fn digits(text: &str) -> Option<(i64, &str)> {
    let rest = text.trim_start_matches(|c: char| c.is_ascii_digit());
    Some((text[..text.len() - rest.len()].parse().ok()?, rest))
}

/// `[+-]hh[:mm[:ss]]` in seconds.
fn time(text: &str) -> Option<(i64, &str)> {
    let (sign, mut rest) = match text.as_bytes().first()? {
        b'-' => (-1, &text[1..]),
        b'+' => (1, &text[1..]),
        _ => (1, text),
    };
    let (hours, after) = digits(rest)?;
    let mut seconds = hours * 3600;
    rest = after;
    for unit in [60, 1] {
        if let Some(part) = rest.strip_prefix(':') {
            let (n, after) = digits(part)?;
            seconds += n * unit;
            rest = after;
        }
    }
    Some((sign * seconds, rest))
}

fn change(text: &str) -> Option<(Change, &str)> {
    let (day, rest) = if let Some(rest) = text.strip_prefix('M') {
        let (month, rest) = digits(rest)?;
        let (week, rest) = digits(rest.strip_prefix('.')?)?;
        let (weekday, rest) = digits(rest.strip_prefix('.')?)?;
        (Day::Week(month, week, weekday), rest)
    } else if let Some(rest) = text.strip_prefix('J') {
        let (n, rest) = digits(rest)?;
        (Day::Julian(n), rest)
    } else {
        let (n, rest) = digits(text)?;
        (Day::Counted(n), rest)
    };
    let (time, rest) = match rest.strip_prefix('/') {
        Some(rest) => time(rest)?,
        None => (7200, rest),
    };
    Some((Change { day, time }, rest))
}
