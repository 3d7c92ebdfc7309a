//! What to do about a refusal, as docs/REFUSALS.md says it.

const REFUSALS: &str = include_str!("../../docs/REFUSALS.md");

pub fn advice(number: u8) -> &'static str {
    match number {
        // here the row is the caller's, not the state
        12 => "one number for each input, in declared order, with single spaces",
        28 => "bill a variable whose range starts at 0 or above, with minutes of 0 to 1440 a row and rates of 0 to 1,000,000",
        _ => told(number).unwrap_or(""),
    }
}

/// A refusal in words: where, what, and what to do about it.
pub fn refused(at: &str, number: u8, what: &str) -> String {
    format!("{at}: refused {number}: {what}\n  {}\n", advice(number))
}

/// The last cell of the number's row.
fn told(number: u8) -> Option<&'static str> {
    let row = REFUSALS.lines().find_map(|line| line.strip_prefix(&format!("| {number} | ")))?;
    Some(row.split('|').nth(1)?.trim())
}

#[cfg(test)]
mod tests {
    use super::*;
    use rolvenko::meaning;

    #[test]
    fn every_refusal_has_its_row() {
        for number in 1..=u8::MAX {
            let known = meaning(number) != meaning(u8::MAX);
            assert_eq!(told(number).is_some(), known, "{number}");
            assert!(told(number).is_none_or(|advice| advice.len() > 10), "{number}");
        }
    }
}
