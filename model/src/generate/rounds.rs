//! Rule sets of one controller, and what happens to them.

use super::images::sound_image;
use super::instalments::{broken, small_images};
use super::states::{row, state, state_in_range};
use super::Rng;
use crate::check::check_detail;
use crate::image::instructions;
use crate::instalments::{Answer, Paused};
use crate::rounds::{round, RuleSet};
use crate::Refusal;

/// What can happen between the visits of a controller's rule sets, and a round.
#[derive(Clone, Debug, PartialEq, Eq)]
pub enum Event {
    /// A row is posted to a set, with an image lent.
    Post {
        set: usize,
        image: Vec<u8>,
        row: Vec<i32>,
    },
    /// Somebody else writes the state of a set.
    Write {
        set: usize,
        state: Vec<i32>,
    },
    /// A set without a scan in progress has another image from here on.
    Image {
        set: usize,
        image: Vec<u8>,
    },
    /// A set has another share from here on.
    Share {
        set: usize,
        share: usize,
    },
    Round,
}

/// What an event answers.
#[derive(Clone, Debug, PartialEq, Eq)]
pub enum Outcome {
    Posted(Answer),
    Done,
    Visited(Result<Vec<Answer>, Refusal>),
}

impl Event {
    /// The set that the event is for; None for a round, which is for all.
    pub fn set(&self) -> Option<usize> {
        match self {
            Event::Post { set, .. } | Event::Write { set, .. } => Some(*set),
            Event::Image { set, .. } | Event::Share { set, .. } => Some(*set),
            Event::Round => None,
        }
    }

    pub fn by_model(&self, sets: &mut [RuleSet]) -> Outcome {
        match self {
            Event::Post { set, image, row } => Outcome::Posted(sets[*set].paused.post(image, row)),
            Event::Write { set, state } => {
                sets[*set].state = state.clone();
                Outcome::Done
            }
            Event::Image { set, image } => {
                sets[*set].image = image.clone();
                Outcome::Done
            }
            Event::Share { set, share } => {
                sets[*set].share = *share;
                Outcome::Done
            }
            Event::Round => Outcome::Visited(round(sets)),
        }
    }
}

/// A controller of 1 to 8 rule sets, with sound images and shares in their limit.
pub fn farm(rng: &mut Rng) -> Vec<RuleSet> {
    let count = *rng.choose(&[1, 2, 3, 3, 4, 5, 7, 8]);
    (0..count).map(|_| rule_set(rng)).collect()
}

/// A rule set without scan or row.
pub fn rule_set(rng: &mut Rng) -> RuleSet {
    let small = small_images();
    let sound = match rng.below(4) {
        0 => rng.choose(&small).image.to_vec(),
        _ => sound_image(rng),
    };
    let header = check_detail(&sound).expect("a sound image");
    RuleSet {
        state: state_in_range(rng, &header.state_ranges()),
        share: share(rng, instructions(&sound)),
        paused: Paused::default(),
        image: sound,
    }
}

/// A share in its limit: often one that divides the code, or next to one.
fn share(rng: &mut Rng, steps: usize) -> usize {
    let share = match rng.below(6) {
        0 => *rng.choose(&[1, 2, 3, 65_535, 65_536]),
        1 => rng.between(1, 65_536) as usize,
        _ => steps / (1 + rng.below(6)) + rng.below(3),
    };
    share.clamp(1, 65_536)
}

/// Something that happens to these sets; `first` has them as they were at first.
pub fn event(rng: &mut Rng, first: &[RuleSet], now: &[RuleSet]) -> Event {
    let set = rng.below(first.len());
    let RuleSet { image, share, .. } = &first[set];
    let header = check_detail(image).expect("a sound image");
    match rng.below(40) {
        0 => Event::Write {
            set,
            state: state(rng, &header.state_ranges()),
        },
        1 => Event::Share {
            set,
            share: *rng.choose(&[0, 65_537, 1 << 32, usize::MAX]),
        },
        // What was out of limit or broken is as at first again.
        2..=4 => Event::Share { set, share: *share },
        5 | 6 if !now[set].paused.in_progress() => Event::Image {
            set,
            image: sometimes_broken(rng, image, 3),
        },
        7..=27 => Event::Post {
            set,
            image: sometimes_broken(rng, image, 20),
            row: row(rng, &header.row_ranges()),
        },
        _ => Event::Round,
    }
}

/// The image, once in so many calls broken.
fn sometimes_broken(rng: &mut Rng, image: &[u8], calls: usize) -> Vec<u8> {
    match rng.below(calls) {
        0 => broken(image),
        _ => image.to_vec(),
    }
}
