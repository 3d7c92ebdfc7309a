//! A trace as a waveform (IEEE 1364 value change dump), which GTKWave opens: a wire a name, as wide as its range; time goes by rows or, with
//! timers, by their milliseconds.

use crate::image::Range;
use std::fmt::Write;

/// Bits that hold a range: two's complement where it goes below 0.
fn width(range: Range) -> u32 {
    let bits = |n: i64| 64 - n.leading_zeros();
    let (low, high) = (i64::from(range.low), i64::from(range.high));
    match low < 0 {
        true => bits(high.max(0)).max(bits(-low - 1)) + 1,
        false => bits(high).max(1),
    }
}

/// The identifier of the n-th wire: letters and signs of ASCII, counted up.
fn identifier(mut n: usize) -> String {
    let mut found = String::new();
    loop {
        found.push((33 + n % 94) as u8 as char);
        n /= 94;
        if n == 0 {
            return found;
        }
        n -= 1;
    }
}

/// What a unit of time is.
#[derive(Clone, Copy)]
pub enum Unit {
    Row,
    Millisecond,
}

pub struct Waveform {
    wires: Vec<u32>,
    last: Vec<Option<i32>>,
    time: Option<u64>,
    /// what was not taken yet
    text: String,
}

/// The range of the wire `_result`, which tells a row's refusal; no declared name begins so.
const RESULT: Range = Range { low: 0, high: 31, start: 0 };

impl Waveform {
    pub fn new(module: &str, names: &[String], ranges: &[Range], unit: Unit) -> Waveform {
        let (scale, of_time) = match unit {
            Unit::Row => ("1 s", "row"),
            Unit::Millisecond => ("1 ms", "millisecond"),
        };
        let mut text = format!("$timescale {scale} $end\n");
        let _ = writeln!(text, "$comment a unit of time is a {of_time} $end\n$scope module {module} $end");
        let mut wires = Vec::new();
        let all = names.iter().map(String::as_str).zip(ranges.iter().copied()).chain([("_result", RESULT)]);
        for (n, (name, range)) in all.enumerate() {
            let width = width(range);
            let _ = writeln!(text, "$var wire {width} {} {name} $end", identifier(n));
            wires.push(width);
        }
        text.push_str("$upscope $end\n$enddefinitions $end\n");
        Waveform { last: vec![None; wires.len()], time: None, wires, text }
    }

    /// What has come since the last call.
    pub fn taken(&mut self) -> String {
        std::mem::take(&mut self.text)
    }

    /// The values at a time, 0 that of the start, and a row's result; only changes are written.
    pub fn at(&mut self, time: u64, state: &[i32], result: u8) {
        let mut changes = String::new();
        for (n, value) in state.iter().copied().chain([i32::from(result)]).enumerate() {
            if self.last[n] == Some(value) {
                continue;
            }
            self.last[n] = Some(value);
            let id = identifier(n);
            let _ = match self.wires[n] {
                1 => writeln!(changes, "{}{id}", value & 1),
                width => {
                    let bits = value as u32 as u64 & ((1u64 << width) - 1);
                    writeln!(changes, "b{bits:b} {id}")
                }
            };
        }
        if self.time.replace(time) != Some(time) {
            let _ = writeln!(self.text, "#{time}");
        }
        self.text.push_str(&changes);
    }
}
