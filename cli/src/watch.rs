//! `watch`: where the promises that stand behind the rules first fail over the trace that the rows leave (document 02, A.13).

use crate::farm::Farm;
use crate::job::{Found, Job};
use crate::stop::Stop;
use crate::text::{count, line_column, one_line, watches, Token, Watch};
use std::io::{BufWriter, Write};

pub fn watch(mut job: Job) -> Result<(), Stop> {
    let found = job.found()?;
    let farm = &job.farm;
    let failures = rolvenko::watch(&farm.text, &found.states).map_err(|r| Stop::Failed(format!("a trace that scan left: {r}")))?;
    // without names the trace is its start, whatever rows there are
    let places = found.states.len().checked_div(farm.state.len()).unwrap_or(1);
    let mut out = BufWriter::new(std::io::stdout().lock());
    if failures.is_empty() {
        writeln!(out, "{}: no watch stands behind the rules", farm.path.display())?;
    }
    for (watch, failure) in watches(&farm.text).iter().zip(&failures) {
        let (line, column) = line_column(&farm.text, watch.whole.at);
        let told = match failure {
            None => format!("holds at {}: {}", count(places, "place"), one_line(watch.whole.of(&farm.text))),
            Some(place) => format!("fails at {}: {}", stands(&found, *place), why(farm, watch, &found, *place)),
        };
        writeln!(out, "{}:{line}:{column}: {told}", farm.path.display())?;
    }
    out.flush()?;
    match failures.iter().any(Option::is_some) {
        true => Err(Stop::Refused),
        false => found.refused.verdict(),
    }
}

/// A place of the trace, and the row that led there.
fn stands(found: &Found, place: usize) -> String {
    match place {
        0 => "the start".to_owned(),
        place => format!("place {place} (row {})", found.rows[place - 1]),
    }
}

/// The watch and the values that it speaks of; of a pair, those of the place before and of this one.
fn why(farm: &Farm, watch: &Watch, found: &Found, place: usize) -> String {
    let before = |place: usize| place.saturating_sub(1);
    let values = match &watch.later {
        None => values_used(farm, &watch.first, found, place),
        Some(later) => {
            let parts = [values_used(farm, &watch.first, found, before(place)), values_used(farm, later, found, place)];
            parts.into_iter().filter(|part| !part.is_empty()).collect::<Vec<_>>().join("; then ")
        }
    };
    let spelled = one_line(watch.whole.of(&farm.text));
    if values.is_empty() { spelled } else { format!("{spelled} where {values}") }
}

/// The values at a place of the names in a condition; at the start every previous value is the current one.
fn values_used(farm: &Farm, condition: &[Token], found: &Found, place: usize) -> String {
    let size = farm.state.len();
    let state = |place: usize| &found.states[place * size..(place + 1) * size];
    let mut values: Vec<String> = Vec::new();
    for token in condition {
        let spelled = String::from_utf8_lossy(token.of(&farm.text));
        let (mark, name, at) = match spelled.strip_prefix('_') {
            Some(name) => ("_", name, place.saturating_sub(1)),
            None => ("", &*spelled, place),
        };
        let Some(id) = farm.names.iter().position(|n| n.eq_ignore_ascii_case(name)) else {
            continue;
        };
        let value = format!("{mark}{} is {}", farm.names[id], state(at)[id]);
        if !values.contains(&value) {
            values.push(value);
        }
    }
    values.join(", ")
}
