//! `trace`: the state after each row, as document 01 prints it, as CSV, or as a waveform; refused rows are told on standard error.

use crate::columns::Columns;
use crate::job::Job;
use crate::output::Output;
use crate::stop::Stop;
use crate::vcd::{Unit, Waveform};
use std::path::{Path, PathBuf};

pub enum Form {
    Plain,
    Csv,
    Vcd(PathBuf),
}

pub fn trace(job: Job, form: Form) -> Result<(), Stop> {
    match form {
        Form::Plain => lines(job, false),
        Form::Csv => lines(job, true),
        Form::Vcd(path) => waveform(job, &path),
    }
}

fn lines(mut job: Job, csv: bool) -> Result<(), Stop> {
    let mut columns = Columns::new(csv);
    columns.head(&["scan"], &job.farm.names, &["result"])?;
    let refused = job.scans(true, |farm, row| columns.line(&[row.number], farm.values(), &[u64::from(row.result)]))?;
    columns.end()?;
    refused.verdict()
}

fn waveform(mut job: Job, path: &Path) -> Result<(), Stop> {
    let ranges: Vec<_> = (0..job.farm.read.names()).map(|id| job.farm.range(id)).collect();
    let mut to = Output::open(path, &job.reads)?;
    let unit = if job.farm.read.timers == 0 { Unit::Row } else { Unit::Millisecond };
    let mut wave = Waveform::new("rules", &job.farm.names, &ranges, unit);
    // with timers, the milliseconds of all accepted rows, and the time that the dump has come to
    let (mut accepted, mut now) = (0u64, 0u64);
    let refused = job.scans(false, |farm, row| {
        now = match unit {
            Unit::Row => row.number,
            // a refused row stands where its own milliseconds say; a dump never goes back
            Unit::Millisecond => now.max(accepted + u64::from(row.milliseconds)),
        };
        if row.result == 0 {
            accepted += u64::from(row.milliseconds);
        }
        wave.at(now, farm.values(), row.result);
        to.put(wave.taken().as_bytes())
    })?;
    to.end()?;
    refused.verdict()
}
