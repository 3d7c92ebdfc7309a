//! Seeded generators of test inputs: texts, images, states, rows, farm tables, bills,
//! small profiles, lists of calls and rule sets of one controller.
//!
//! The same seed gives the same input on every machine.

mod charge;
mod clock;
mod closed;
mod delays;
mod images;
mod instalments;
mod letter_case;
mod limits;
mod mutate;
mod pairs;
mod rounds;
mod states;
mod structured_text;
mod text;
mod timers;
mod values;
mod watches;

pub use charge::{
    bill, bill_of, counters, found_trace, licence_image, limit_sum, mutate_bill, Bill, REFUSED_SUM,
};
pub use clock::{broken_table, clock_text, farm_table, mutated_clock_text, utc_minute};
pub use closed::{limit_product, one_refused, profile_image, OneRefused};
pub use images::{damaged_image, random_image, sound_image, unsound_images, Unsound};
pub use instalments::{
    alphabet, broken, call_list, closure, small_images, Call, Closure, SmallImage,
};
pub use letter_case::vary_names;
pub use limits::{limit_texts, nested_condition, nested_expression, LimitText};
pub use mutate::{mutate_bytes, mutate_tokens, mutated_text, random_bytes, token_soup};
pub use rounds::{event, farm, rule_set, Event, Outcome};
pub use states::{any_number, row, row_in_range, state, state_in_range, trace_input};
pub use structured_text::{edited_st_source, st_source, Names};
pub use text::{render, text, text_tokens, Shape};
pub use timers::{sound_timer_image, timer_image};
pub use watches::{watch_parts, watched_trace, WatchParts};

use crate::Refusal;

/// A pseudorandom number generator (splitmix64).
#[derive(Clone, Debug)]
pub struct Rng(u64);

impl Rng {
    pub fn new(seed: u64) -> Rng {
        Rng(seed.wrapping_mul(0x9E37_79B9_7F4A_7C15) ^ 0x5851_F42D_4C95_7F2D)
    }

    /// The next 64 bits.
    pub fn bits(&mut self) -> u64 {
        self.0 = self.0.wrapping_add(0x9E37_79B9_7F4A_7C15);
        let mut z = self.0;
        z = (z ^ (z >> 30)).wrapping_mul(0xBF58_476D_1CE4_E5B9);
        z = (z ^ (z >> 27)).wrapping_mul(0x94D0_49BB_1331_11EB);
        z ^ (z >> 31)
    }

    /// A number from 0 to `count` - 1; `count` must not be 0.
    pub fn below(&mut self, count: usize) -> usize {
        (self.bits() % count as u64) as usize
    }

    /// A number from `low` to `high`.
    pub fn between(&mut self, low: i64, high: i64) -> i64 {
        let width = (high as i128 - low as i128 + 1) as u128;
        (low as i128 + (self.bits() as u128 % width) as i128) as i64
    }

    /// Yes in `percent` of 100 calls.
    pub fn chance(&mut self, percent: usize) -> bool {
        self.below(100) < percent
    }

    /// One of the items; there must be one.
    pub fn choose<'a, T>(&mut self, items: &'a [T]) -> &'a T {
        &items[self.below(items.len())]
    }
}

/// Removes the mark `@` from a text. The answer is the text and the place of the mark.
pub fn marked(text: &str) -> (Vec<u8>, Option<usize>) {
    let bytes = text.bytes().filter(|&byte| byte != b'@').collect();
    (bytes, text.bytes().position(|byte| byte == b'@'))
}

/// A text with the refusal `number` expected at its mark `@`, or accepted for 0.
pub fn expected(number: u8, text: &str) -> (Vec<u8>, Option<Refusal>) {
    let (bytes, place) = marked(text);
    (bytes, place.map(|place| Refusal::new(number, place)))
}
