//! UTC times and the Gregorian calendar.

/// Days from 1 January 1970 to a day of the Gregorian calendar.
pub fn days(year: i64, month: i64, day: i64) -> i64 {
    let y = if month <= 2 { year - 1 } else { year };
    let era = y.div_euclid(400);
    let of_era = y.rem_euclid(400);
    let of_year = (153 * ((month + 9) % 12) + 2) / 5 + day - 1;
    era * 146_097 + of_era * 365 + of_era / 4 - of_era / 100 + of_year - 719_468
}

/// The year of a UTC day.
fn year_of(day: i64) -> i64 {
    (1970 + day.div_euclid(366)..).find(|y| days(y + 1, 1, 1) > day).unwrap_or(1970)
}

pub fn this_year() -> i64 {
    let now = std::time::SystemTime::now().duration_since(std::time::UNIX_EPOCH);
    now.map_or(1970, |since| year_of(since.as_secs() as i64 / 86_400))
}

/// A UTC second as date and time.
pub fn stamp(second: i64) -> String {
    let day = second.div_euclid(86_400);
    let year = year_of(day);
    let month = (1..=12).rev().find(|m| days(year, *m, 1) <= day).unwrap_or(1);
    let rest = second.rem_euclid(86_400);
    format!("{year}-{month:02}-{:02} {:02}:{:02}Z", day - days(year, month, 1) + 1, rest / 3600, rest / 60 % 60)
}

/// The UTC minute that is given as a number, or as a time, `2026-10-24T23:00Z`.
pub fn minute(text: &str) -> Result<i64, String> {
    let number = text.parse().ok();
    number.or_else(|| time(text)).ok_or_else(|| "neither a count of minutes nor a UTC time as 2026-10-24T23:00Z".to_owned())
}

fn time(text: &str) -> Option<i64> {
    let (date, clock) = text.strip_suffix('Z')?.split_once('T')?;
    let numbers = |text: &str, between: char| text.split(between).map(|w| w.parse::<u16>().ok().map(i64::from)).collect::<Option<Vec<_>>>();
    let ([year, month, day], [hour, minute]) = (numbers(date, '-')?[..].try_into().ok()?, numbers(clock, ':')?[..].try_into().ok()?);
    let month_days = if month == 12 { 31 } else { days(year, month + 1, 1) - days(year, month, 1) };
    let fits = (1..=12).contains(&month) && (1..=month_days).contains(&day) && hour < 24 && minute < 60;
    fits.then(|| days(year, month, day) * 1440 + hour * 60 + minute)
}

#[cfg(test)]
mod tests {
    use super::*;

    #[test]
    fn times_are_minutes() {
        for (text, wanted) in [("1970-01-01T00:00Z", 0), ("2026-10-24T23:00Z", 29_881_380), ("2024-02-29T23:59Z", 28_487_519), ("-5", -5)] {
            assert_eq!(minute(text), Ok(wanted), "{text}");
        }
        for text in ["2023-02-29T00:00Z", "2026-13-01T00:00Z", "2026-00-01T00:00Z", "2026-12-32T00:00Z", "2026-10-24T24:00Z", "2026-10-24T23:60Z", "2026-10-24", "2026-10-24T23:00", "T", "Z", "", "TZ", "2026-10-24T23:00:00Z"] {
            assert!(minute(text).is_err(), "{text}");
        }
    }

    #[test]
    fn stamps_are_read_again() {
        for second in (0..4_000_000_000i64).step_by(60 * 99_991) {
            assert_eq!(minute(&stamp(second).replace(' ', "T")), Ok(second / 60));
        }
    }
}
