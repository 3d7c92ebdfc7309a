//! `charge`: what a project owes for the licences that a trace shows (document 02, A.12).

use crate::advice::refused;
use crate::job::Job;
use crate::stop::{tell, Stop};
use crate::text::count;
use rolvenko::{charge, meaning};
use std::io::Write;

/// Rates in cents per licence-hour; licences above the threshold go at the second.
pub struct Rates {
    pub threshold: i32,
    pub rate: i32,
    pub above: i32,
    /// minutes of each row
    pub minutes: i32,
}

pub fn bill(mut job: Job, of: &str, rates: &Rates) -> Result<(), Stop> {
    let Some(id) = job.farm.names.iter().position(|n| n.eq_ignore_ascii_case(of)) else {
        return Err(Stop::Failed(format!("{}: no name {of}; it declares {}", job.farm.path.display(), job.farm.names.join(" "))));
    };
    let found = job.found()?;
    let minutes = vec![rates.minutes; found.rows.len()];
    match charge(&job.farm.image, id, &found.states, &minutes, rates.threshold, rates.rate, rates.above) {
        Ok(sum) => writeln!(std::io::stdout(), "{}: {} {}/60 cents over {}, {} refused", job.farm.names[id], sum.cents, sum.sixtieths, count(minutes.len(), "row"), found.refused.0)?,
        Err(refusal) => {
            let number = refusal.number;
            let what = if number == 28 { out_of_limit(&job, id, rates) } else { Vec::new() };
            let what = if what.is_empty() { meaning(number).to_owned() } else { what.join("; ") };
            tell(&refused(&job.farm.path.display().to_string(), number, &what));
            return Err(Stop::Refused);
        }
    }
    found.refused.verdict()
}

/// What of a charge that is refused 28 looks wrong, in words.
fn out_of_limit(job: &Job, id: usize, rates: &Rates) -> Vec<String> {
    let (name, range) = (&job.farm.names[id], job.farm.range(id));
    let rate = |z: i32| !(0..=1_000_000).contains(&z);
    let seen = [
        (id < job.farm.read.inputs, format!("{name} is an input, and licences held are a variable")),
        (range.low < 0, format!("{name} can be negative: its range is {}..{}", range.low, range.high)),
        (rates.threshold < 0, format!("--threshold {} is negative", rates.threshold)),
        (rate(rates.rate), format!("--rate {} is outside 0..1000000", rates.rate)),
        (rate(rates.above), format!("--rate-above {} is outside 0..1000000", rates.above)),
        (!(0..=1440).contains(&rates.minutes), format!("{} minutes a row are outside 0..1440", rates.minutes)),
    ];
    seen.into_iter().filter(|(wrong, _)| *wrong).map(|(_, words)| words).collect()
}
