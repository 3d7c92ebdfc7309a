//! Rules at work: rows in turn from a file or of zeros, filled with local time where a farm table is given, scanned, and handed over.

use crate::advice::advice;
use crate::clock::Clock;
use crate::farm::Farm;
use crate::progress::Progress;
use crate::refused_row::row_refused;
use crate::source::{row, Row, Rows, Rules};
use crate::stop::{tell, Stop};
use std::collections::BTreeSet;
use std::path::{Path, PathBuf};

/// Rows in turn: from the rule file, another file, or so many of zeros.
enum Given {
    Lines(Rows),
    Zeros { left: u64, numbers: usize },
    Nothing,
}

impl Given {
    fn of(rules: &mut Rules, rows: Option<&Path>, zeros: Option<u64>, numbers: usize) -> Result<Given, Stop> {
        if rules.rows.is_some() && (rows.is_some() || zeros.is_some()) {
            return Err(Stop::Failed(format!("{}: rows stand behind its `#` line already", rules.path.display())));
        }
        Ok(match (rows, zeros) {
            (Some(path), _) if path == Path::new("-") && rules.path == path => return Err(Stop::Failed("rules and rows cannot both be standard input".to_owned())),
            (Some(path), _) => Given::Lines(Rows::open(path)?),
            (None, Some(left)) => Given::Zeros { left, numbers },
            (None, None) => rules.rows.take().map_or(Given::Nothing, Given::Lines),
        })
    }

    /// How many there are, where that is known.
    fn count(&self) -> Option<u64> {
        match self {
            Given::Lines(_) => None,
            Given::Zeros { left, .. } => Some(*left),
            Given::Nothing => Some(0),
        }
    }

    /// The next row, or why a line is none.
    fn next(&mut self) -> Result<Option<Row>, Stop> {
        match self {
            Given::Lines(rows) => Ok(rows.next()?.map(|line| row(&line))),
            Given::Zeros { left, numbers } if *left > 0 => {
                *left -= 1;
                Ok(Some(Ok(vec![0; *numbers])))
            }
            _ => Ok(None),
        }
    }

    /// Where the row stands that came last, which has this number.
    fn place(&self, number: u64) -> String {
        match self {
            Given::Lines(rows) => format!("{}:{}", rows.path.display(), rows.line),
            _ => format!("row {number}"),
        }
    }
}

/// One scanned row: its number, 0 or its refusal, the steps of an accepted one, and the milliseconds that it ends with where there is a timer.
pub struct Scanned {
    pub number: u64,
    pub result: u8,
    pub steps: u32,
    pub milliseconds: u32,
}

/// How many rows were refused.
pub struct Refused(pub u64);

impl Refused {
    /// A run with a refused row ends with status 1.
    pub fn verdict(&self) -> Result<(), Stop> {
        if self.0 > 0 { Err(Stop::Refused) } else { Ok(()) }
    }
}

/// The trace that the rows leave: the states in turn, the start first, and the row of each but the start.
pub struct Found {
    pub states: Vec<i32>,
    pub rows: Vec<u64>,
    pub refused: Refused,
}

/// Numbers that a trace is kept in at most: a mistyped count of rows ends here and not in all of the memory.
const KEPT: usize = 1 << 28;

pub struct Job {
    pub farm: Farm,
    given: Given,
    clock: Option<Clock>,
    /// refusals whose advice was given
    advised: BTreeSet<u8>,
    /// the files that it reads
    pub reads: Vec<PathBuf>,
}

impl Job {
    pub fn new(mut rules: Rules, rows: Option<&Path>, zeros: Option<u64>, clock: Option<Clock>) -> Result<Job, Stop> {
        let farm = Farm::new(&rules)?;
        let reads = [Some(rules.path.as_path()), rows, clock.as_ref().map(|c| c.path.as_path())].into_iter().flatten().map(Path::to_owned).collect();
        let given = Given::of(&mut rules, rows, zeros, farm.read.row_len())?;
        if let Some(clock) = &clock {
            // 19 and 20 come before any row
            clock.fill(&farm, 0, &mut vec![0; farm.read.row_len()])?;
        }
        Ok(Job { farm, given, clock, advised: BTreeSet::new(), reads })
    }

    /// Scans the rows in turn and hands each over, the start first as number 0; refused ones are told.
    pub fn scans(&mut self, results_on_output: bool, mut each: impl FnMut(&Farm, Scanned) -> Result<(), Stop>) -> Result<Refused, Stop> {
        each(&self.farm, Scanned { number: 0, result: 0, steps: 0, milliseconds: 0 })?;
        let mut progress = Progress::new(results_on_output);
        let count = self.given.count();
        let (mut number, mut refused) = (0, 0);
        while let Some(row) = self.given.next()? {
            number += 1;
            progress.row(number, count);
            let scanned = self.scan(number, row)?;
            refused += u64::from(scanned.result != 0);
            each(&self.farm, scanned)?;
        }
        Ok(Refused(refused))
    }

    /// Scans all rows and keeps the trace.
    pub fn found(&mut self) -> Result<Found, Stop> {
        let (mut states, mut rows) = (Vec::new(), Vec::new());
        let refused = self.scans(false, |farm, row| {
            if row.result == 0 {
                states.extend(&farm.state);
                rows.extend(Some(row.number).filter(|number| *number > 0));
            }
            match states.len().max(rows.len()) <= KEPT {
                true => Ok(()),
                false => Err(Stop::Failed(format!("over {KEPT} numbers in the trace; take fewer rows at a time"))),
            }
        })?;
        Ok(Found { states, rows, refused })
    }

    fn scan(&mut self, number: u64, mut row: Row) -> Result<Scanned, Stop> {
        if let (Some(clock), Ok(values)) = (&self.clock, row.as_mut()) {
            if values.len() == self.farm.read.row_len() {
                clock.fill(&self.farm, number, values)?;
            }
        }
        let read = &self.farm.read;
        let whole = row.as_ref().ok().filter(|values| values.len() == read.row_len());
        let milliseconds = whole.and_then(|values| values.get(read.inputs)).map_or(0, |m| u32::try_from(*m).unwrap_or(0));
        match self.farm.scan(row.as_deref().ok()) {
            Ok(steps) => Ok(Scanned { number, result: 0, steps, milliseconds }),
            Err(refusal) => {
                tell(&format!("{}: {}\n", self.given.place(number), row_refused(&self.farm, row.as_deref(), refusal)));
                if self.advised.insert(refusal.number) {
                    tell(&format!("  {}\n", advice(refusal.number)));
                }
                Ok(Scanned { number, result: refusal.number, steps: refusal.steps, milliseconds })
            }
        }
    }
}
