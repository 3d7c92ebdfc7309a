//! Start and scan of an image. Every call checks the image before it works.

use crate::check::{check_detail, Fault, Header};
use crate::image::{code, decode, is_pick};
use crate::number;
use crate::{Refusal, HELD, NAMES};

/// A refused scan: its number, its place (0 but for 11) and "the steps up to and
/// including the refusing instruction, 0 before the code".
#[derive(Clone, Copy, Debug, PartialEq, Eq, Hash)]
pub struct ScanRefusal {
    pub number: u8,
    pub place: usize,
    pub steps: u32,
}

impl ScanRefusal {
    pub(crate) fn before_code(number: u8) -> ScanRefusal {
        ScanRefusal {
            number,
            place: 0,
            steps: 0,
        }
    }

    pub(crate) fn unsound(fault: Fault) -> ScanRefusal {
        let Refusal { number, place } = fault.refusal();
        ScanRefusal {
            number,
            place,
            steps: 0,
        }
    }
}

/// Writes the starting state: tests 9, then 11, then 12.
pub fn start(image: &[u8], state: &mut [i32]) -> Result<(), Refusal> {
    let header = check_detail(image).map_err(|fault| fault.refusal())?;
    if state.len() != header.state_length() {
        return Err(Refusal::new(12, 0));
    }
    let (values, elapsed) = state.split_at_mut(header.names);
    for (value, range) in values.iter_mut().zip(header.ranges()) {
        *value = range.start;
    }
    // "its elapsed time, starting at 0"
    elapsed.fill(0);
    Ok(())
}

/// One scan: tests 9, 11, 12, 18, 13, then works the code. Answers the count of steps.
pub fn scan(image: &[u8], state: &mut [i32], row: &[i32]) -> Result<u32, ScanRefusal> {
    let header = check_detail(image).map_err(ScanRefusal::unsound)?;
    before_code(&header, state, row).map_err(ScanRefusal::before_code)?;
    let (inputs, time) = row.split_at(header.inputs);
    let mut machine = Machine {
        header: &header,
        previous: state,
        current: [0; NAMES],
        elapsed: state[header.names..].to_vec(),
        milliseconds: time.first().copied().unwrap_or(0),
        held: [0; HELD],
        depth: 0,
        picked: false,
    };
    machine.current[..inputs.len()].copy_from_slice(inputs);
    let (steps, result) = machine.run(&image[header.code..]);
    if let Err(number) = result {
        return Err(ScanRefusal {
            number,
            place: 0,
            steps,
        });
    }
    let Machine {
        current, elapsed, ..
    } = machine;
    state[..header.names].copy_from_slice(&current[..header.names]);
    state[header.names..].copy_from_slice(&elapsed);
    Ok(steps)
}

/// "12 state or row of wrong length", "18 a value outside its range" of the state,
/// "13 an input outside its range" of the row.
fn before_code(header: &Header, state: &[i32], row: &[i32]) -> Result<(), u8> {
    if state.len() != header.state_length() || row.len() != header.row_length() {
        return Err(12);
    }
    let ranges = header.ranges();
    let (values, elapsed) = state.split_at(header.names);
    let (inputs, milliseconds) = row.split_at(header.inputs);
    // "A state holding elapsed outside 0..N is 18."
    let mut times = elapsed.iter().zip(&header.timers);
    if values.iter().zip(ranges).any(|(v, range)| !range.holds(*v))
        || times.any(|(time, timer)| !(0..=timer.limit).contains(time))
    {
        return Err(18);
    }
    // "the milliseconds since the last accepted scan ..; a negative one is 13"
    if inputs.iter().zip(ranges).any(|(v, range)| !range.holds(*v))
        || milliseconds.iter().any(|&time| time < 0)
    {
        return Err(13);
    }
    Ok(())
}

/// The values at work. Yes is held as 1 and no as 0.
struct Machine<'a> {
    header: &'a Header,
    /// "previous values are those of the state found, inputs included"
    previous: &'a [i32],
    current: [i32; NAMES],
    /// Elapsed times "by timer id"; those of timers not worked yet are the state's.
    elapsed: Vec<i32>,
    milliseconds: i32,
    held: [i32; HELD],
    depth: usize,
    /// A pick was made since the last settle.
    picked: bool,
}

impl Machine<'_> {
    /// Works the code of a sound image: the steps, and the number of a refusal.
    fn run(&mut self, code: &[u8]) -> (u32, Result<(), u8>) {
        let mut at = 0;
        let mut steps = 0;
        let mut passing = false;
        while let Some(instruction) = decode(&code[at..]) {
            at += instruction.length;
            steps += 1;
            if passing {
                // "all instructions up to and including the next pick count a step each
                // and do nothing else"
                passing = !is_pick(instruction.opcode);
                continue;
            }
            match self.step(instruction.opcode, instruction.number) {
                Ok(open) => passing = !open,
                Err(number) => return (steps, Err(number)),
            }
        }
        (steps, Ok(()))
    }

    /// Works one instruction. Answers false only for a gate that finds no.
    #[inline]
    fn step(&mut self, opcode: u8, number: u64) -> Result<bool, u8> {
        match opcode {
            code::CONSTANT => self.push(number::to_signed(number) as i32),
            code::CURRENT => self.push(self.current[number as usize]),
            code::PREVIOUS => self.push(self.previous[number as usize]),
            code::ADD..=code::MODULO => {
                let (left, right) = self.pop_two();
                self.push(arithmetic(opcode, left, right).ok_or(14)?);
            }
            code::NEGATE => {
                let value = self.pop();
                self.push(value.checked_neg().ok_or(14)?);
            }
            code::EQUAL..=code::GREATER_EQUAL => {
                let (left, right) = self.pop_two();
                self.push(i32::from(compare(opcode, left, right)));
            }
            code::NOT => {
                let value = self.pop();
                self.push(1 - value);
            }
            code::AND => {
                let (left, right) = self.pop_two();
                self.push(left & right);
            }
            code::OR => {
                let (left, right) = self.pop_two();
                self.push(left | right);
            }
            code::GATE => return self.gate(),
            code::PICK | code::RISE | code::FALL => self.pick(opcode, number as usize)?,
            code::LET => {
                let value = self.pop();
                self.set(number as usize, value)?;
            }
            code::TIMER => self.timer(number as usize),
            _ => self.settle(number as usize),
        }
        Ok(true)
    }

    /// "15 a gate true after a pick for that variable"
    fn gate(&mut self) -> Result<bool, u8> {
        let open = self.pop() == 1;
        if open && self.picked {
            return Err(15);
        }
        Ok(open)
    }

    /// "16 a pick equal to the previous value", or "22 a rising pick at or below the previous
    /// value, or a falling one at or above it, in place of 16 and before 17".
    fn pick(&mut self, opcode: u8, id: usize) -> Result<(), u8> {
        let value = self.pop();
        let previous = self.previous[id];
        match opcode {
            code::RISE if value <= previous => return Err(22),
            code::FALL if value >= previous => return Err(22),
            code::PICK if value == previous => return Err(16),
            _ => {}
        }
        self.picked = true;
        self.set(id, value)
    }

    /// "17 a pick or let outside its range"
    fn set(&mut self, id: usize, value: i32) -> Result<(), u8> {
        if !self.header.ranges()[id].holds(value) {
            return Err(17);
        }
        self.current[id] = value;
        Ok(())
    }

    /// "Settle keeps the previous value if nothing was picked."
    fn settle(&mut self, id: usize) {
        if !self.picked {
            self.current[id] = self.previous[id];
        }
        self.picked = false;
    }

    /// "if w is 0 or rose from 0, elapsed is 0; else the smaller of N and elapsed plus
    /// milliseconds. Then t is 1 exactly if w is 1 and elapsed is N."
    fn timer(&mut self, id: usize) {
        let timers = &self.header.timers;
        let Some(at) = timers.iter().position(|timer| timer.id == id) else {
            return;
        };
        let (w, limit) = (timers[at].watched, timers[at].limit);
        let runs = self.current[w] == 1 && self.previous[w] == 1;
        self.elapsed[at] = match runs {
            // A sum past 32 bits is past N too.
            true => self.elapsed[at]
                .saturating_add(self.milliseconds)
                .min(limit),
            false => 0,
        };
        self.current[id] = i32::from(self.current[w] == 1 && self.elapsed[at] == limit);
    }

    fn push(&mut self, value: i32) {
        self.held[self.depth] = value;
        self.depth += 1;
    }

    fn pop(&mut self) -> i32 {
        self.depth -= 1;
        self.held[self.depth]
    }

    fn pop_two(&mut self) -> (i32, i32) {
        let right = self.pop();
        (self.pop(), right)
    }
}

/// The result of code 4 to 8, or None for "result outside 32 bits, or zero divisor" of `/`.
/// "a mod b = a - b * (a / b) in whole numbers" and 0 by 0 (A.5): it is never refused.
fn arithmetic(opcode: u8, left: i32, right: i32) -> Option<i32> {
    match opcode {
        code::ADD => left.checked_add(right),
        code::SUBTRACT => left.checked_sub(right),
        code::MULTIPLY => left.checked_mul(right),
        code::DIVIDE => left.checked_div(right),
        _ if right == 0 => Some(0),
        _ => Some(left.wrapping_rem(right)),
    }
}

fn compare(opcode: u8, left: i32, right: i32) -> bool {
    match opcode {
        code::EQUAL => left == right,
        code::UNEQUAL => left != right,
        code::LESS => left < right,
        code::LESS_EQUAL => left <= right,
        code::GREATER => left > right,
        _ => left >= right,
    }
}
