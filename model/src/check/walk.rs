//! The check of the code: a walk through the instructions.

use super::{Breach, Fault, Header, Range};
use crate::features;
use crate::image::{code, decode, is_pick, Instruction};
use crate::number;
use crate::program::Timer;
use crate::{HELD, NAMES};

/// Goes through the instructions; a breach is at the code byte of the instruction. Answers
/// the timers in the order of the code.
pub(super) fn check_code(image: &[u8], header: &Header) -> Result<Vec<Timer>, Fault> {
    let mut walk = Walk::new(header);
    let mut at = header.code;
    while at < image.len() {
        let fault = |breach| Fault { breach, place: at };
        if !is_listed(image[at]) {
            return Err(fault(Breach::UnknownCode));
        }
        let Some(instruction) = decode(&image[at..]) else {
            return Err(fault(Breach::BadNumber));
        };
        walk.instruction(instruction).map_err(fault)?;
        at += instruction.length;
    }
    if walk.unfinished() {
        return Err(Fault {
            breach: Breach::Missing,
            place: image.len(),
        });
    }
    Ok(walk.timers)
}

/// "only the codes listed", those of requests that are on among them.
fn is_listed(opcode: u8) -> bool {
    let features = features::in_force();
    match opcode {
        code::CONSTANT..=code::SETTLE => true,
        code::TIMER => features.timer_codes(),
        code::RISE | code::FALL => features.pair_codes(),
        _ => false,
    }
}

#[derive(Clone, Copy, PartialEq, Eq)]
enum Sort {
    Number,
    YesNo,
}

/// What is known after the instructions so far.
struct Walk<'h> {
    header: &'h Header,
    /// Sorts of the values held; the first `depth` count.
    held: [Sort; HELD],
    depth: usize,
    /// A gate has no pick yet.
    gate: bool,
    /// The variable picked and not settled yet, and the code of its last pick.
    picked: Option<(usize, u8)>,
    /// Variables settled or let, by id.
    settled: [bool; NAMES],
    /// Of the instruction before: the variable settled or let and, if timers of it followed,
    /// the id of the last one.
    after: Option<(usize, Option<usize>)>,
    timers: Vec<Timer>,
}

impl<'h> Walk<'h> {
    fn new(header: &'h Header) -> Walk<'h> {
        Walk {
            header,
            held: [Sort::Number; HELD],
            depth: 0,
            gate: false,
            picked: None,
            settled: [false; NAMES],
            after: None,
            timers: Vec::new(),
        }
    }

    fn instruction(&mut self, instruction: Instruction) -> Result<(), Breach> {
        let opcode = instruction.opcode;
        if self.gate && opcode > code::NEGATE && !is_pick(opcode) {
            return Err(Breach::BetweenGateAndPick);
        }
        let after = self.after.take();
        match opcode {
            code::CONSTANT => self.constant(instruction.number),
            code::CURRENT => self.current(instruction.number),
            code::PREVIOUS => {
                self.id(instruction.number)?;
                self.push(Sort::Number)
            }
            code::ADD..=code::MODULO => self.operation(2, Sort::Number, Sort::Number),
            code::NEGATE => self.operation(1, Sort::Number, Sort::Number),
            code::EQUAL..=code::GREATER_EQUAL => self.operation(2, Sort::Number, Sort::YesNo),
            code::NOT => self.operation(1, Sort::YesNo, Sort::YesNo),
            code::AND | code::OR => self.operation(2, Sort::YesNo, Sort::YesNo),
            code::GATE => self.open_gate(),
            code::PICK | code::RISE | code::FALL => self.pick(opcode, instruction.number),
            code::LET => self.assign(instruction.number),
            code::TIMER => self.timer(after, instruction),
            _ => self.settle(instruction.number),
        }
    }

    /// "constants in signed 32-bit range"
    fn constant(&mut self, written: u64) -> Result<(), Breach> {
        if i32::try_from(number::to_signed(written)).is_err() {
            return Err(Breach::BadConstant);
        }
        self.push(Sort::Number)
    }

    /// "A current value is used only for inputs and for variables whose rule stands
    /// earlier": those settled or let.
    fn current(&mut self, number: u64) -> Result<(), Breach> {
        let id = self.id(number)?;
        if id >= self.header.inputs && !self.settled[id] {
            return Err(Breach::CurrentTooEarly);
        }
        self.push(Sort::Number)
    }

    fn open_gate(&mut self) -> Result<(), Breach> {
        if !self.holds_just(Sort::YesNo) {
            return Err(Breach::GateHeld);
        }
        self.depth = 0;
        self.gate = true;
        Ok(())
    }

    fn pick(&mut self, opcode: u8, number: u64) -> Result<(), Breach> {
        let id = self.variable(number)?;
        if !self.gate {
            return Err(Breach::PickWithoutGate);
        }
        if !self.holds_just(Sort::Number) {
            return Err(Breach::PickLetHeld);
        }
        if self.picked.is_some_and(|(other, _)| other != id) {
            return Err(Breach::BetweenPickAndSettle);
        }
        if self.settled[id] {
            return Err(Breach::SettledAgain);
        }
        if !may_follow(self.picked.map(|(_, last)| last), opcode) {
            return Err(Breach::PickSides);
        }
        self.depth = 0;
        self.gate = false;
        self.picked = Some((id, opcode));
        Ok(())
    }

    /// Let.
    fn assign(&mut self, number: u64) -> Result<(), Breach> {
        let id = self.variable(number)?;
        if !self.holds_just(Sort::Number) {
            return Err(Breach::PickLetHeld);
        }
        if self.picked.is_some() {
            return Err(Breach::BetweenPickAndSettle);
        }
        if self.settled[id] {
            return Err(Breach::SettledAgain);
        }
        self.depth = 0;
        self.settled[id] = true;
        self.after = Some((id, None));
        Ok(())
    }

    /// "In the header t is a variable; .. its one instruction 23 keeps these limits and
    /// replaces a let, directly after w's settle or let, timers of one w by id."
    fn timer(
        &mut self,
        after: Option<(usize, Option<usize>)>,
        instruction: Instruction,
    ) -> Result<(), Breach> {
        let id = self.variable(instruction.number)?;
        let watched = self.variable(instruction.more[0])?;
        let limit = i32::try_from(instruction.more[1]).map_err(|_| Breach::BadTimer)?;
        let ranges = self.header.ranges();
        let bit = |range: Range| (range.low, range.high) == (0, 1);
        if limit < 1 || !bit(ranges[id]) || ranges[id].start != 0 || !bit(ranges[watched]) {
            return Err(Breach::BadTimer);
        }
        let (set, last) = after.ok_or(Breach::TimerPlace)?;
        if set != watched || last.is_some_and(|last| last >= id) {
            return Err(Breach::TimerPlace);
        }
        if self.settled[id] {
            return Err(Breach::SettledAgain);
        }
        self.settled[id] = true;
        self.after = Some((watched, Some(id)));
        self.timers.push(Timer { id, watched, limit });
        Ok(())
    }

    fn settle(&mut self, number: u64) -> Result<(), Breach> {
        let id = self.variable(number)?;
        if self.depth != 0 {
            return Err(Breach::SettleHeld);
        }
        match self.picked {
            // "some 24 and then some 25": a 24 may not be the last.
            Some((picked, code::RISE)) if picked == id => return Err(Breach::PickSides),
            Some((picked, _)) if picked == id => {}
            Some(_) => return Err(Breach::BetweenPickAndSettle),
            None if self.settled[id] => return Err(Breach::SettledAgain),
            None => return Err(Breach::SettleWithoutPick),
        }
        self.picked = None;
        self.settled[id] = true;
        self.after = Some((id, None));
        Ok(())
    }

    /// Takes `count` values of the sort `from` and holds one of the sort `to`.
    fn operation(&mut self, count: usize, from: Sort, to: Sort) -> Result<(), Breach> {
        let Some(left) = self.depth.checked_sub(count) else {
            return Err(Breach::WrongSort);
        };
        if self.held[left..self.depth].iter().any(|&sort| sort != from) {
            return Err(Breach::WrongSort);
        }
        self.depth = left;
        self.push(to)
    }

    fn push(&mut self, sort: Sort) -> Result<(), Breach> {
        if self.depth == HELD {
            return Err(Breach::TooManyHeld);
        }
        self.held[self.depth] = sort;
        self.depth += 1;
        Ok(())
    }

    fn holds_just(&self, sort: Sort) -> bool {
        self.depth == 1 && self.held[0] == sort
    }

    /// The id of a declared name.
    fn id(&self, number: u64) -> Result<usize, Breach> {
        if number < self.header.names as u64 {
            Ok(number as usize)
        } else {
            Err(Breach::UnknownId)
        }
    }

    /// The id of a declared variable: "no input ever".
    fn variable(&self, number: u64) -> Result<usize, Breach> {
        let id = self.id(number)?;
        if id < self.header.inputs {
            return Err(Breach::InputSet);
        }
        Ok(id)
    }

    /// "nothing missing at the end": a pick, a settle, an instruction that takes the
    /// values held, or the rule of a variable.
    fn unfinished(&self) -> bool {
        let variables = &self.settled[self.header.inputs..self.header.names];
        self.gate || self.picked.is_some() || self.depth > 0 || variables.contains(&false)
    }
}

/// Whether a pick may come after the pick `last` of the same variable, or as the first:
/// "the picks before one settle are all code 20, or some 24 and then some 25".
fn may_follow(last: Option<u8>, pick: u8) -> bool {
    match pick {
        code::FALL => matches!(last, Some(code::RISE | code::FALL)),
        _ => last.is_none() || last == Some(pick),
    }
}
