//! `closed`: whether rules can ever stop in service, and if they can, the first state and row that stop them (document 02, A.10).

use crate::advice::{advice, refused};
use crate::farm::Farm;
use crate::image::TIMER;
use crate::progress::Progress;
use crate::refused_row::row_refused;
use crate::source::Rules;
use crate::stop::{tell, Stop};
use crate::text::count;
use rolvenko::{closed_part, combination, meaning, scan, Refusal, COMBINATIONS};
use std::io::Write;
use std::time::{Duration, Instant};

const REFUSED_PAIR: u8 = 27;
/// The time that a part of the scans should take, and how many the first part has.
const PART: Duration = Duration::from_millis(100);
const FIRST_PART: usize = 64;

pub fn profile(rules: &Rules) -> Result<(), Stop> {
    let mut farm = Farm::new(rules)?;
    let Err(refusal) = asked(&farm) else {
        return Ok(writeln!(std::io::stdout(), "{}: closed: no in-range row is ever refused", farm.path.display())?);
    };
    if refusal.number != REFUSED_PAIR {
        let what = if refusal.number == 26 { sizes(&farm) } else { meaning(refusal.number).to_owned() };
        tell(&refused(&farm.path.display().to_string(), refusal.number, &what));
        return Err(Stop::Refused);
    }
    let mut row = vec![0; farm.read.inputs];
    combination(&farm.image, refusal.place as u32, &mut farm.state, &mut row).map_err(|r| Stop::Failed(format!("the pair of a 27: {r}")))?;
    let named = |values: &[i32]| farm.names.iter().zip(values).map(|(n, z)| format!("{n} {z}")).collect::<Vec<_>>().join(", ");
    tell(&format!("{}: refused 27 after {} scans: state {}; row {}\n", farm.path.display(), refusal.place, named(&farm.state), named(&row)));
    if let Err(why) = scan(&farm.image, &mut farm.state.clone(), &row) {
        tell(&format!("  {}\n  {}\n", row_refused(&farm, Ok(&row), why), advice(why.number)));
    }
    Err(Stop::Refused)
}

/// What `closed` answers, asked part by part up to the most scans that there can be; meanwhile how many are done.
fn asked(farm: &Farm) -> Result<(), Refusal> {
    let mut progress = Progress::new(false);
    let scans = usize::try_from(farm.read.scans()).unwrap_or(usize::MAX);
    let (mut done, mut most) = (0, FIRST_PART);
    while done < COMBINATIONS {
        let began = Instant::now();
        closed_part(&farm.image, done, most)?;
        done += most;
        progress.scans(done.min(scans) as u64, scans as u64);
        most = if done < scans { next_part(most, began.elapsed()) } else { COMBINATIONS };
    }
    Ok(())
}

/// Scans of a part that takes about as long as PART, if a scan takes what one of the part before did.
fn next_part(most: usize, took: Duration) -> usize {
    let wanted = most as f64 * PART.as_secs_f64() / took.as_secs_f64().max(1e-9);
    (wanted as usize).clamp(1, 8 * most)
}

/// How many scans that would be, and by which ranges; or the timers.
fn sizes(farm: &Farm) -> String {
    let size = |id: usize| {
        let range = farm.range(id);
        let twice = if id < farm.read.inputs { " twice" } else { "" };
        format!("{} {}{twice}", farm.names[id], i64::from(range.high) - i64::from(range.low) + 1)
    };
    let timers: Vec<&str> = farm.read.code.iter().filter(|i| i.code == TIMER).filter_map(|i| i.operand).map(|id| &*farm.names[id as usize]).collect();
    if !timers.is_empty() {
        return format!("with {}: {}", count(timers.len(), "timer"), timers.join(", "));
    }
    let all: Vec<String> = (0..farm.read.names()).map(size).collect();
    format!("over {COMBINATIONS} states and rows to scan: {}", all.join(", "))
}
