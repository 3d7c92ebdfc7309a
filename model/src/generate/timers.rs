//! Timers (request A.7) in texts, images and rows. Without the request no random number is
//! taken here.

use super::text::{Declared, Writer};
use super::Rng;
use crate::check::{check, Breach, Range};
use crate::features;
use crate::image::code;
use crate::number;

pub(super) fn in_texts() -> bool {
    features::in_force().timers
}

pub(super) fn in_images() -> bool {
    features::in_force().timer_codes()
}

/// A limit: mostly one that a few rows reach.
fn limit(rng: &mut Rng, most: i64) -> i64 {
    let great = *rng.choose(&[5000, 2_147_483_646, 2_147_483_647]);
    match rng.below(8) {
        0 if most > 9 => great,
        1 => 5,
        _ => rng.between(1, 3),
    }
}

/// Milliseconds of a row: often 0, 1, or a limit that the generator gives, or next to one.
pub(super) fn milliseconds(rng: &mut Rng) -> i32 {
    const TIMES: [i32; 15] = [
        0,
        0,
        1,
        1,
        1,
        2,
        2,
        3,
        4,
        5,
        4999,
        5000,
        2_147_483_645,
        2_147_483_646,
        2_147_483_647,
    ];
    *rng.choose(&TIMES)
}

/// Whether a range may be that of milliseconds: an input of this range is varied like them.
pub(super) fn is_milliseconds(range: &Range) -> bool {
    in_images() && (range.low, range.high) == (0, i32::MAX)
}

/// Whether a range may be that of an elapsed time, 0 to N.
pub(super) fn is_elapsed(range: &Range) -> bool {
    in_images() && range.low == 0 && range.high > 1
}

/// An elapsed time: often 0, 1, N - 1 or N.
pub(super) fn elapsed(rng: &mut Rng, limit: i32) -> i32 {
    match rng.below(6) {
        0 => rng.between(0, limit.into()) as i32,
        1 => 1,
        2 => 0,
        3 => limit,
        _ => limit - 1,
    }
}

impl Writer<'_> {
    /// `timer t of w limit N;` for variables of range 0..1.
    pub(super) fn timers(&mut self) {
        let variables = self.inputs..self.names.len();
        let watchable: Vec<usize> = variables
            .filter(|&id| (self.names[id].low, self.names[id].high) == (0, 1))
            .collect();
        if !in_texts() || watchable.is_empty() {
            return;
        }
        let room = crate::NAMES - self.names.len();
        let count = self.rng.below(self.shape.timers + 1).min(room);
        for _ in 0..count {
            let watched = *self.rng.choose(&watchable);
            let spelling = self.new_name();
            let w = self.names[watched].spelling.clone();
            self.put_all(&[b"timer", &spelling, b"of", &w, b"limit"]);
            let limit = limit(self.rng, self.shape.reach);
            self.digits(limit);
            self.put(";");
            self.watched.push((self.names.len(), watched));
            self.names.push(Declared {
                spelling,
                low: 0,
                high: 1,
            });
            self.ruled.push(false);
        }
    }

    /// Now and then the value of a timer for a variable of range 0..1, so that timers follow
    /// timers, or 1, so that time passes. Whether one was written.
    pub(super) fn timed_value(&mut self, variable: usize) -> bool {
        let bit = (self.names[variable].low, self.names[variable].high) == (0, 1);
        if self.watched.is_empty() || !bit || self.rng.chance(50) {
            return false;
        }
        let timers = self.watched.iter().map(|&(timer, _)| timer);
        let known: Vec<usize> = timers.filter(|&timer| self.ruled[timer]).collect();
        match known.is_empty() || self.rng.chance(50) {
            true => self.put("1"),
            false => {
                let timer = *self.rng.choose(&known);
                self.put(self.names[timer].spelling.clone());
            }
        }
        true
    }

    /// The rule of a variable is written: its value and its timers' can be used.
    pub(super) fn rule_stands(&mut self, variable: usize) {
        self.ruled[variable] = true;
        for &(timer, watched) in &self.watched {
            if watched == variable {
                self.ruled[timer] = true;
            }
        }
    }
}

/// Now and then a word of timers.
pub(super) fn some_word(rng: &mut Rng) -> Option<Vec<u8>> {
    if !in_texts() || !rng.chance(8) {
        return None;
    }
    let words = ["timer", "of", "limit", "_timer", "_of", "limits", "Timer"];
    Some(rng.choose(&words).as_bytes().to_vec())
}

/// An image with timers whose ids stand anywhere among the variables; sound but now and then
/// for one number of an instruction 23.
pub fn timer_image(rng: &mut Rng) -> Vec<u8> {
    // Now and then all names but one are timers of it: a state of 127 numbers.
    let [inputs, variables, timers] = match rng.below(40) {
        0 => [0, 1, crate::NAMES - 1],
        _ => [rng.below(3), 1 + rng.below(3), 1 + rng.below(3)],
    };
    let mut ids: Vec<usize> = (inputs..inputs + variables + timers).collect();
    for last in (1..ids.len()).rev() {
        ids.swap(last, rng.below(last + 1));
    }
    let (watched, timed) = ids.split_at(variables);
    let mut image = vec![inputs as u8, (variables + timers) as u8];
    for id in 0..inputs + variables + timers {
        let start = watched.contains(&id) && rng.chance(30);
        image.extend([0, 2, 2 * u8::from(start)]);
    }
    let of: Vec<usize> = timed.iter().map(|_| *rng.choose(watched)).collect();
    let mut known: Vec<usize> = (0..inputs).collect();
    for &w in watched {
        variable_rule(rng, w, &known, &mut image);
        let mut own: Vec<usize> = (0..timers)
            .filter(|&k| of[k] == w)
            .map(|k| timed[k])
            .collect();
        own.sort_unstable();
        for &t in &own {
            timer_instruction(rng, [t, w], &mut image);
        }
        known.push(w);
        known.extend(own);
    }
    image
}

/// A rule of a variable from its previous value and what is known before it, timers of other
/// variables too.
fn variable_rule(rng: &mut Rng, variable: usize, known: &[usize], image: &mut Vec<u8>) {
    let v = variable as u8;
    let condition = [
        code::PREVIOUS,
        v,
        code::CONSTANT,
        0,
        code::EQUAL,
        code::GATE,
    ];
    match rng.below(5) {
        0 | 1 if !known.is_empty() => {
            image.extend([code::CURRENT, *rng.choose(known) as u8, code::LET, v]);
        }
        0 | 1 => image.extend([code::PREVIOUS, v, code::LET, v]),
        2 | 3 => image.extend([code::CONSTANT, 2, code::LET, v]),
        _ => {
            image.extend(condition);
            image.extend([code::CONSTANT, 2, code::PICK, v, code::SETTLE, v]);
        }
    }
}

fn timer_instruction(rng: &mut Rng, ids: [usize; 2], image: &mut Vec<u8>) {
    let limit = limit(rng, 9999) as u64;
    let mut numbers = [ids[0] as u64, ids[1] as u64, limit];
    if rng.chance(3) {
        numbers[rng.below(3)] = *rng.choose(&[0, 1, 2, 3, 64, 1 << 31, (1 << 35) - 1]);
    }
    image.push(code::TIMER);
    for operand in numbers {
        number::write(operand, image);
    }
}

/// A sound image with timers.
pub fn sound_timer_image(rng: &mut Rng) -> Vec<u8> {
    loop {
        let image = timer_image(rng);
        if check(&image).is_ok() {
            return image;
        }
    }
}

/// A broken instruction 23 and what may stand before it: breach, code up to its end.
type Broken = (Breach, &'static [u8]);

/// After `2 0 21 1`, the let of variable 1, in a header of one input and two variables.
const BROKEN: [Broken; 17] = [
    (Breach::BadNumber, &[23]),
    (Breach::BadNumber, &[23, 2]),
    (Breach::BadNumber, &[23, 2, 1]),
    (Breach::BadNumber, &[23, 2, 1, 128]),
    (Breach::BadNumber, &[23, 2, 1, 129, 0]),
    (Breach::BadNumber, &[23, 130, 0, 1, 1]),
    (Breach::UnknownId, &[23, 3, 1, 1]),
    (Breach::UnknownId, &[23, 2, 3, 1]),
    (Breach::InputSet, &[23, 0, 1, 1]),
    (Breach::InputSet, &[23, 2, 0, 1]),
    (Breach::BadTimer, &[23, 2, 1, 0]),
    (Breach::BadTimer, &[23, 2, 1, 128, 128, 128, 128, 8]),
    (Breach::BadTimer, &[23, 2, 1, 255, 255, 255, 255, 127]),
    (Breach::SettledAgain, &[23, 1, 1, 1]),
    (Breach::TimerPlace, &[23, 1, 2, 1]),
    (Breach::TimerPlace, &[23, 2, 2, 1]),
    (Breach::CurrentTooEarly, &[2, 2]),
];

/// Broken code with timers after a header of one input and two variables of range 0..1:
/// breach, how far before the end, code. `case` is a condition, a gate and a value.
pub(super) fn broken_timers(case: &[u8]) -> Vec<(Breach, usize, Vec<u8>)> {
    if !in_images() {
        return vec![(Breach::UnknownCode, 1, vec![code::TIMER])];
    }
    let set = [2, 0, 21, 1];
    let timer = [23, 2, 1, 5];
    let mut list: Vec<_> = BROKEN
        .iter()
        .map(|(breach, code)| (*breach, code.len(), [&set, *code].concat()))
        .collect();
    let in_case = [case, &timer[..]].concat();
    let after_pick = [case, &[20, 1], &timer[..]].concat();
    list.extend([
        (Breach::TimerPlace, 4, timer.to_vec()),
        (Breach::TimerPlace, 4, [&[2, 0], &timer[..]].concat()),
        (Breach::TimerPlace, 4, [&set[..], &[2, 0], &timer].concat()),
        (Breach::TimerPlace, 4, [&set[..], &timer, &timer].concat()),
        (
            Breach::SettledAgain,
            2,
            [&set[..], &timer, &[1, 0, 21, 2]].concat(),
        ),
        (
            Breach::SettledAgain,
            4,
            [&[2, 0, 21, 2], &set[..], &timer].concat(),
        ),
        (Breach::BetweenGateAndPick, 4, in_case),
        (Breach::TimerPlace, 4, after_pick),
        (Breach::Missing, 0, set.to_vec()),
    ]);
    list
}
