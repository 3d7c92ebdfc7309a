//! Calls on a paused scan: lists by seed, and all lists of a small alphabet.

use super::states::{any_number, row, state, state_in_range};
use super::{timers, Rng};
use crate::check::{check_detail, Header};
use crate::instalments::{Answer, Paused};
use std::collections::HashSet;
use std::hash::Hash;

/// One call on a paused scan, with what is lent to it.
#[derive(Clone, Debug, PartialEq, Eq)]
pub enum Call {
    Post {
        image: Vec<u8>,
        row: Vec<i32>,
    },
    Begin {
        image: Vec<u8>,
        state: Vec<i32>,
    },
    /// An instalment; its image is the one that the scan was begun with.
    Advance {
        steps: usize,
    },
    Finish {
        state: Vec<i32>,
    },
}

impl Call {
    /// The model's answer, and the state lent to a finish as it is left.
    pub fn by_model(&self, paused: &mut Paused) -> (Answer, Vec<i32>) {
        let answer = match self {
            Call::Post { image, row } => paused.post(image, row),
            Call::Begin { image, state } => paused.begin(image, state),
            Call::Advance { steps } => paused.advance(*steps),
            Call::Finish { state } => {
                let mut left = state.clone();
                return (paused.finish(&mut left), left);
            }
        };
        (answer, Vec::new())
    }
}

/// A small sound image with states and rows that show all it can do.
pub struct SmallImage {
    pub label: &'static str,
    pub image: &'static [u8],
    pub states: &'static [&'static [i32]],
    pub rows: &'static [&'static [i32]],
}

/// Images of 0 to 21 instructions that are accepted, or refused by 14, 15 or 16, with timers
/// one of them; the last state and row of each are outside their ranges where there is a name.
pub fn small_images() -> Vec<SmallImage> {
    let small = |label, image, states, rows| SmallImage {
        label,
        image,
        states,
        rows,
    };
    let mut list = vec![
        small("no names", &[0, 0], &[&[]], &[&[]]),
        small("latch", &LATCH, &[&[0], &[1], &[2]], &[&[]]),
        small(
            "launch",
            &LAUNCH,
            &[&[0, 0], &[0, 1], &[-1, 0]],
            &[&[0], &[1], &[2]],
        ),
        small("two true cases", &TWO_CASES, &[&[0], &[1], &[-1]], &[&[]]),
        small(
            "case of the previous value",
            &SAME_VALUE,
            &[&[0, 0], &[1, 1], &[0, 2]],
            &[&[0], &[1], &[-1]],
        ),
        small(
            "division",
            &DIVISION,
            &[&[0, 1, 1], &[2, 9, 0], &[0, 0, 10]],
            &[&[0], &[1], &[3]],
        ),
    ];
    if timers::in_images() {
        list.push(small(
            "timer",
            &TIMER,
            &[
                &[0, 0, 0, 0],
                &[1, 1, 0, 30],
                &[1, 1, 1, 50],
                &[1, 1, 0, 51],
            ],
            &[&[1, 30], &[0, 7], &[1, -1]],
        ));
    }
    list
}

const LATCH: [u8; 17] = [0, 1, 0, 2, 0, 3, 0, 1, 0, 10, 19, 1, 2, 20, 0, 22, 0];
/// The launch latch of document 01.
const LAUNCH: [u8; 42] = [
    1, 1, 0, 2, 0, 0, 2, 0, 3, 1, 1, 0, 10, 2, 0, 1, 2, 10, 17, 19, 1, 2, 20, 1, 3, 1, 1, 2, 10, 2,
    0, 1, 0, 10, 17, 19, 1, 0, 20, 1, 22, 1,
];
/// `_v = 0` and `_v < 1`, both with the value 1: 15.
const TWO_CASES: [u8; 27] = [
    0, 1, 0, 4, 0, 3, 0, 1, 0, 10, 19, 1, 2, 20, 0, 3, 0, 1, 2, 12, 19, 1, 2, 20, 0, 22, 0,
];
/// `_v` as a case's value: 16.
const SAME_VALUE: [u8; 20] = [
    1, 1, 0, 2, 0, 0, 2, 0, 2, 0, 1, 2, 10, 19, 3, 1, 20, 1, 22, 1,
];
/// `a` is `_a + 1`, `b` is 6 / the input: 14, after a new value.
const DIVISION: [u8; 25] = [
    1, 2, 0, 4, 0, 0, 18, 0, 0, 18, 0, 3, 1, 1, 2, 4, 21, 1, 1, 12, 2, 0, 7, 21, 2,
];

/// `W` is `In`, and `Q` its timer of limit 50.
const TIMER: [u8; 19] = [1, 2, 0, 2, 0, 0, 2, 0, 0, 2, 0, 2, 0, 21, 1, 23, 2, 1, 50];

/// The image without its last byte, or one more where that is sound.
pub fn broken(image: &[u8]) -> Vec<u8> {
    let cut = &image[..image.len() - 1];
    match check_detail(cut) {
        Ok(_) => [image, &[0]].concat(),
        Err(_) => cut.to_vec(),
    }
}

/// Posts of each row, a longer one and one for a broken image; starts and finishes with
/// each state and a longer one; a start by a broken image; instalments.
pub fn alphabet(small: &SmallImage) -> Vec<Call> {
    let image = small.image.to_vec();
    let longer = |values: &[i32]| [values, &[0]].concat();
    let with_longer = |lists: &[&[i32]]| -> Vec<Vec<i32>> {
        let plain = lists.iter().map(|list| list.to_vec());
        plain.chain([longer(lists[0])]).collect()
    };
    let post = |row| Call::Post {
        image: image.clone(),
        row,
    };
    let begin = |state| Call::Begin {
        image: image.clone(),
        state,
    };
    let mut calls: Vec<Call> = with_longer(small.rows).into_iter().map(post).collect();
    calls.extend(with_longer(small.states).into_iter().map(begin));
    let finish = |state| Call::Finish { state };
    calls.extend(with_longer(small.states).into_iter().map(finish));
    calls.extend([0, 1, 2, 5, 99].map(|steps| Call::Advance { steps }));
    calls.push(Call::Post {
        image: broken(&image),
        row: small.rows[0].to_vec(),
    });
    calls.push(Call::Begin {
        image: broken(&image),
        state: small.states[0].to_vec(),
    });
    calls
}

/// What a closure met.
#[derive(Clone, Copy, Debug, PartialEq, Eq)]
pub struct Closure {
    pub situations: usize,
    pub calls: usize,
    /// Calls of the longest list that was needed to meet a situation first.
    pub depth: usize,
}

/// Every list of these calls, of any length: each call is made in each situation met, until
/// none is new. A situation holds all that later answers rest on, of both sides of a
/// comparison. `next` makes the last of a list of calls, in the situation that the others lead
/// to, and answers the situation after it. A difference that it finds is answered with its
/// list, a shortest one.
pub fn closure<P: Clone + Eq + Hash, C, D>(
    first: P,
    calls: &[C],
    mut next: impl FnMut(&P, &[&C]) -> Result<P, D>,
) -> Result<Closure, (D, Vec<usize>)> {
    let mut met = HashSet::from([first.clone()]);
    let mut situations: Vec<(P, Vec<usize>)> = vec![(first, Vec::new())];
    let mut at = 0;
    let mut made = 0;
    while at < situations.len() {
        for index in 0..calls.len() {
            let (situation, path) = &situations[at];
            let path: Vec<usize> = path.iter().copied().chain([index]).collect();
            let list: Vec<&C> = path.iter().map(|&index| &calls[index]).collect();
            let after = match next(situation, &list) {
                Ok(after) => after,
                Err(difference) => return Err((difference, path)),
            };
            made += 1;
            if met.insert(after.clone()) {
                situations.push((after, path));
            }
        }
        at += 1;
    }
    Ok(Closure {
        situations: situations.len(),
        calls: made,
        depth: situations.last().map_or(0, |(_, path)| path.len()),
    })
}

/// A list of calls on one sound image, mostly with the state that the last scan was begun
/// with or left; some do not fit.
pub fn call_list(rng: &mut Rng, image: &[u8], count: usize) -> Vec<Call> {
    let header = check_detail(image).expect("a sound image");
    let mut lists = Lists {
        paused: Paused::default(),
        kept: state_in_range(rng, &header.state_ranges()),
        image,
        header,
    };
    (0..count).map(|_| lists.call(rng)).collect()
}

/// A list of calls as it grows: what the model has, and the state that the caller keeps.
struct Lists<'i> {
    image: &'i [u8],
    header: Header,
    paused: Paused,
    kept: Vec<i32>,
}

impl Lists<'_> {
    fn call(&mut self, rng: &mut Rng) -> Call {
        let call = match rng.below(8) {
            0 | 1 => self.post(rng),
            2 | 3 => self.begin(rng),
            4 | 5 => Call::Advance {
                steps: *rng.choose(&[0, 1, 1, 2, 3, 7, 20, 99, 1 << 16, 1 << 32, usize::MAX]),
            },
            _ => self.finish(rng),
        };
        let (answer, left) = call.by_model(&mut self.paused);
        match &call {
            Call::Begin { state, .. } if answer.is_ok() => self.kept = state.clone(),
            Call::Finish { .. } if answer.is_ok() => self.kept = left,
            _ => {}
        }
        call
    }

    fn post(&mut self, rng: &mut Rng) -> Call {
        let image = match rng.below(20) {
            0 => broken(self.image),
            _ => self.image.to_vec(),
        };
        let row = row(rng, &self.header.row_ranges());
        Call::Post { image, row }
    }

    fn begin(&mut self, rng: &mut Rng) -> Call {
        let image = match rng.below(20) {
            0 => broken(self.image),
            _ => self.image.to_vec(),
        };
        let state = self.lent(rng);
        Call::Begin { image, state }
    }

    fn finish(&mut self, rng: &mut Rng) -> Call {
        let state = self.lent(rng);
        Call::Finish { state }
    }

    /// The state kept, now and then another.
    fn lent(&mut self, rng: &mut Rng) -> Vec<i32> {
        let ranges = self.header.state_ranges();
        match rng.below(12) {
            0 => state(rng, &ranges),
            1 if !ranges.is_empty() => {
                let mut other = self.kept.clone();
                other[rng.below(ranges.len())] = any_number(rng);
                other
            }
            _ => self.kept.clone(),
        }
    }
}
