//! The check of an image: each sentence of "Sound:" in document 01.

mod walk;

use crate::number;
use crate::program::{self, Timer};
use crate::{Refusal, IMAGE_LIMIT, NAMES};
use walk::check_code;

/// Which sentence of "Sound:" is broken.
#[derive(Clone, Copy, Debug, PartialEq, Eq, Hash, PartialOrd, Ord)]
pub enum Breach {
    /// "at most 65,536 bytes" (refusal 9; all others are 11)
    TooLong,
    /// "shortest form only"; also a number cut short or of more than five groups
    BadNumber,
    /// "at most 64 names"
    TooManyNames,
    /// "low <= start <= high, all in signed 32-bit range"
    BadRange,
    /// "operands of the right sort, numbers or yes-no"
    WrongSort,
    /// "never over 40 values held"
    TooManyHeld,
    /// "constants in signed 32-bit range"
    BadConstant,
    /// "only the codes listed"
    UnknownCode,
    /// "and ids of names declared"
    UnknownId,
    /// "gate finds just one yes-no"
    GateHeld,
    /// "pick and let just one number"
    PickLetHeld,
    /// "settle none"
    SettleHeld,
    /// "each pick its gate"
    PickWithoutGate,
    /// "with only codes 1 to 9 between" a gate and its pick
    BetweenGateAndPick,
    /// "picks followed by the settle of the same id ... with no let, and no pick or
    /// settle of another id, in between"
    BetweenPickAndSettle,
    /// "at least one" pick before a settle
    SettleWithoutPick,
    /// "each variable settled or let once, not picked after that"
    SettledAgain,
    /// "no input ever"
    InputSet,
    /// "current values by the rule above"
    CurrentTooEarly,
    /// "nothing missing at the end"
    Missing,
    /// A.6: "the picks before one settle are all code 20, or some 24 and then some 25"
    PickSides,
    /// A.7: the one instruction 23 of a timer "keeps these limits": t of range 0..1 starting
    /// at 0, w of range 0..1, N from 1 to 2,147,483,647
    BadTimer,
    /// A.7: "directly after w's settle or let, timers of one w by id"
    TimerPlace,
}

/// A breach and the place that is answered.
#[derive(Clone, Copy, Debug, PartialEq, Eq)]
pub struct Fault {
    pub breach: Breach,
    pub place: usize,
}

impl Fault {
    pub fn refusal(&self) -> Refusal {
        let number = if self.breach == Breach::TooLong {
            9
        } else {
            11
        };
        Refusal::new(number, self.place)
    }
}

/// The low, high and start of a name.
#[derive(Clone, Copy, Debug, Default, PartialEq, Eq)]
pub struct Range {
    pub low: i32,
    pub high: i32,
    pub start: i32,
}

impl Range {
    pub fn holds(&self, value: i32) -> bool {
        self.low <= value && value <= self.high
    }
}

/// The header of an image.
#[derive(Clone, Debug)]
pub struct Header {
    pub inputs: usize,
    pub names: usize,
    ranges: [Range; NAMES],
    /// Place where the code begins.
    pub code: usize,
    /// The timers of the code, by id.
    pub timers: Vec<Timer>,
}

impl Header {
    /// Low, high and start of each name in declared order.
    pub fn ranges(&self) -> &[Range] {
        &self.ranges[..self.names]
    }

    /// Low, high and start of each value of a state.
    pub fn state_ranges(&self) -> Vec<Range> {
        program::state_ranges(self.ranges(), &self.timers)
    }

    /// Low and high of each value of a row.
    pub fn row_ranges(&self) -> Vec<Range> {
        program::row_ranges(&self.ranges()[..self.inputs], &self.timers)
    }

    pub fn state_length(&self) -> usize {
        self.names + self.timers.len()
    }

    pub fn row_length(&self) -> usize {
        self.inputs + usize::from(!self.timers.is_empty())
    }
}

/// "Check ... test 9, then 11."
pub fn check(image: &[u8]) -> Result<(), Refusal> {
    match check_detail(image) {
        Ok(_) => Ok(()),
        Err(fault) => Err(fault.refusal()),
    }
}

/// The check with the header of a sound image, or with the breach of an unsound one.
pub fn check_detail(image: &[u8]) -> Result<Header, Fault> {
    if image.len() > IMAGE_LIMIT {
        return Err(Fault {
            breach: Breach::TooLong,
            place: 0,
        });
    }
    let mut header = read_header(image)?;
    let mut timers = check_code(image, &header)?;
    timers.sort_by_key(|timer| timer.id);
    header.timers = timers;
    Ok(header)
}

/// Reads the header; a breach is at "the first header number ... that breaks soundness".
fn read_header(image: &[u8]) -> Result<Header, Fault> {
    let mut at = 0;
    let inputs = read_count(image, &mut at, NAMES)?;
    let variables = read_count(image, &mut at, NAMES - inputs)?;
    let names = inputs + variables;
    let mut ranges = [Range::default(); NAMES];
    for range in &mut ranges[..names] {
        range.low = read_signed(image, &mut at, i32::MIN, i32::MAX)?;
        range.high = read_signed(image, &mut at, range.low, i32::MAX)?;
        range.start = read_signed(image, &mut at, range.low, range.high)?;
    }
    Ok(Header {
        inputs,
        names,
        ranges,
        code: at,
        timers: Vec::new(),
    })
}

/// The header number at `at`. "What is cut short breaks at its own first byte"; where
/// nothing of it is there, that place is the image length.
fn read_number(image: &[u8], at: usize) -> Result<(u64, usize), Fault> {
    number::read(&image[at..]).map_err(|_| Fault {
        breach: if at == image.len() {
            Breach::Missing
        } else {
            Breach::BadNumber
        },
        place: at,
    })
}

fn read_count(image: &[u8], at: &mut usize, most: usize) -> Result<usize, Fault> {
    let (count, length) = read_number(image, *at)?;
    if count > most as u64 {
        return Err(Fault {
            breach: Breach::TooManyNames,
            place: *at,
        });
    }
    *at += length;
    Ok(count as usize)
}

fn read_signed(image: &[u8], at: &mut usize, low: i32, high: i32) -> Result<i32, Fault> {
    let (written, length) = read_number(image, *at)?;
    let value = number::to_signed(written);
    if value < i64::from(low) || value > i64::from(high) {
        return Err(Fault {
            breach: Breach::BadRange,
            place: *at,
        });
    }
    *at += length;
    Ok(value as i32)
}
