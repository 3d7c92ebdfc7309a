//! `replay`: translation, start and a whole list of rows, as demand 3 of document 01 speaks of them. Printed is the trace found, which is the start
//! and the state after each accepted row, with the row's number and its steps. The archive is asked for one row after the other: rows come one at a time, any number of them, where
//! `rolvenko::replay` is lent all of them at once.

use crate::columns::Columns;
use crate::job::Job;
use crate::stop::Stop;

pub fn replay(mut job: Job, csv: bool) -> Result<(), Stop> {
    let mut columns = Columns::new(csv);
    columns.head(&["place", "row", "steps"], &job.farm.names, &[])?;
    let mut place = 0;
    let refused = job.scans(true, |farm, row| {
        if row.result == 0 {
            columns.line(&[place, row.number, u64::from(row.steps)], farm.values(), &[])?;
            place += 1;
        }
        Ok(())
    })?;
    columns.end()?;
    refused.verdict()
}
