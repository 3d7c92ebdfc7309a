//! Watch formulas (request A.13) in texts, and traces to watch. Without the request no
//! random number is taken here.

use super::charge::found_trace;
use super::letter_case::vary_names;
use super::states::any_number;
use super::text::{Shape, Writer};
use super::Rng;
use crate::features;
use crate::image::write_image;
use crate::program::Program;
use crate::WATCHES;

/// A text in parts, each a list of tokens.
pub struct WatchParts {
    /// Declarations and rules.
    pub rules: Vec<Vec<u8>>,
    /// The condition of each watch and that of its `X`, without brackets.
    pub watches: Vec<(Vec<Vec<u8>>, Option<Vec<Vec<u8>>>)>,
}

fn on() -> bool {
    features::in_force().watches
}

impl WatchParts {
    /// The tokens of the whole text.
    pub fn tokens(&self) -> Vec<Vec<u8>> {
        let mut tokens = self.rules.clone();
        let mut put = |words: &str| {
            tokens.extend(words.split(' ').map(|word| word.as_bytes().to_vec()));
            tokens.len()
        };
        // Each condition is put in at its place afterwards.
        let mut conditions = Vec::new();
        for (first, then) in &self.watches {
            conditions.push((put("watch : G ( ["), first));
            put("]");
            if let Some(then) = then {
                conditions.push((put("-> X ( ["), then));
                put("] )");
            }
            put(") ;");
        }
        for (at, condition) in conditions.into_iter().rev() {
            tokens.splice(at..at, condition.iter().cloned());
        }
        tokens
    }
}

/// A random accepted text with up to `most` watches, in parts.
pub fn watch_parts(rng: &mut Rng, shape: Shape, most: usize) -> WatchParts {
    let mut writer = Writer::new(rng, shape);
    writer.names_and_rules();
    let rules = std::mem::take(&mut writer.tokens);
    let count = writer.rng.below(most + 1);
    let watches = (0..count).map(|_| writer.watch()).collect();
    let mut parts = WatchParts { rules, watches };
    vary_names(rng, &mut parts.rules);
    parts
}

impl Writer<'_> {
    /// Watches after the rules, if the request is on.
    pub(super) fn watches(&mut self) {
        if !on() || self.rng.chance(60) {
            return;
        }
        let most = if self.rng.chance(5) { WATCHES } else { 2 };
        let rules = std::mem::take(&mut self.tokens);
        let watches = (0..1 + self.rng.below(most)).map(|_| self.watch());
        let watches = watches.collect();
        self.tokens = WatchParts { rules, watches }.tokens();
    }

    /// The condition of a watch, and now and then a second one.
    fn watch(&mut self) -> (Vec<Vec<u8>>, Option<Vec<Vec<u8>>>) {
        let mut condition = |size| {
            self.condition(size);
            std::mem::take(&mut self.tokens)
        };
        let first = condition(2);
        let then = condition(2);
        let then = self.rng.chance(50).then_some(then);
        (first, then)
    }
}

/// Now and then a word of watches.
pub(super) fn some_word(rng: &mut Rng) -> Option<Vec<u8>> {
    if !on() || !rng.chance(8) {
        return None;
    }
    let words = [
        "watch", "G", "X", "_G", "g", "x", "watches", "Watch", "_watch",
    ];
    Some(rng.choose(&words).as_bytes().to_vec())
}

/// A trace for a text: found by scans, now and then with other values or of a wrong length.
pub fn watched_trace(rng: &mut Rng, program: &Program) -> Vec<i32> {
    let mut trace = found_trace(rng, &write_image(program), 12);
    match rng.below(6) {
        0 if !trace.is_empty() => {
            for _ in 0..1 + rng.below(3) {
                let at = rng.below(trace.len());
                trace[at] = any_number(rng);
            }
        }
        1 => trace.truncate(rng.below(trace.len() + 1)),
        2 if rng.chance(30) => trace.push(0),
        _ => {}
    }
    trace
}
