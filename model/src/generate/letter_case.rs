//! The letter case of names and words. Without request A.2 nothing is changed here, and no
//! random number is taken.

use super::Rng;
use crate::features;
use crate::token::{next_token, words, Kind};

fn on() -> bool {
    features::in_force().names_without_case
}

/// Gives letters another case at random.
fn shuffle(rng: &mut Rng, token: &mut [u8]) {
    match rng.below(4) {
        0 => token.make_ascii_uppercase(),
        1 => token.make_ascii_lowercase(),
        _ => {
            for byte in token.iter_mut().filter(|byte| byte.is_ascii_alphabetic()) {
                *byte ^= (rng.below(2) as u8) << 5;
            }
        }
    }
}

fn is_name(token: &[u8]) -> bool {
    matches!(next_token(token, 0).kind, Kind::Name | Kind::Previous)
}

/// Gives names another case: none of them, some, or all. The text stays the same under
/// A.2's sameness.
pub fn vary_names(rng: &mut Rng, tokens: &mut [Vec<u8>]) {
    if !on() {
        return;
    }
    let percent = *rng.choose(&[0, 20, 100]);
    for token in tokens.iter_mut().filter(|token| is_name(token)) {
        if rng.chance(percent) {
            shuffle(rng, token);
        }
    }
}

/// Whether a name may not be declared: a word of the grammar, or one in another case.
pub(super) fn is_word(name: &[u8]) -> bool {
    next_token(name, 0).kind != Kind::Name
}

/// Now and then a word of the grammar in any case, with or without `_` before it.
pub(super) fn some_word(rng: &mut Rng) -> Option<Vec<u8>> {
    if !on() || !rng.chance(8) {
        return None;
    }
    let words: Vec<_> = words().collect();
    let mut word = rng.choose(&words).0.to_vec();
    shuffle(rng, &mut word);
    if rng.chance(25) {
        word.insert(0, b'_');
    }
    Some(word)
}

/// Now and then gives one token, a word too, another case. Whether it did so.
pub(super) fn mutate_case(rng: &mut Rng, tokens: &mut [Vec<u8>]) -> bool {
    let chosen = on() && rng.chance(10);
    if chosen {
        let at = rng.below(tokens.len());
        shuffle(rng, &mut tokens[at]);
    }
    chosen
}
