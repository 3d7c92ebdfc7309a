//! Texts that may have faults: edited texts, token lists and random bytes.

use super::delays::mutate_timer;
use super::letter_case::{mutate_case, some_word};
use super::text::{render, text_tokens, Shape};
use super::{timers, watches, Rng};

/// Tokens that an edit may put in.
const TOKENS: [&str; 46] = [
    "input",
    "var",
    "init",
    "mod",
    "GX",
    "..",
    "->",
    "<=",
    ">=",
    "<>",
    ";",
    ":",
    "(",
    ")",
    "[",
    "]",
    "~",
    "&",
    "|",
    "=",
    "<",
    ">",
    "+",
    "-",
    "*",
    "/",
    "0",
    "1",
    "00",
    "2147483647",
    "2147483648",
    "99999999999999999999",
    "zz",
    "_zz",
    "a",
    "_a",
    "_",
    ".",
    "$",
    "\u{b}",
    "é",
    "abcdefghijklmnop",
    "abcdefghijklmnopq",
    "_abcdefghijklmnopq",
    "_mod",
    "_1",
];

/// An accepted text after one to three edits of tokens, of bytes or of both.
pub fn mutated_text(rng: &mut Rng, shape: Shape) -> Vec<u8> {
    let tokens = text_tokens(rng, shape);
    edited(rng, tokens)
}

/// The text of a list of tokens after such edits.
pub(super) fn edited(rng: &mut Rng, mut tokens: Vec<Vec<u8>>) -> Vec<u8> {
    let kind = rng.below(3);
    let edits = 1 + rng.below(3);
    if kind != 1 {
        for _ in 0..edits {
            mutate_tokens(rng, &mut tokens);
        }
    }
    let mut text = render(rng, &tokens);
    if kind != 0 {
        for _ in 0..edits {
            mutate_bytes(rng, &mut text);
        }
    }
    text
}

/// One edit of a list of tokens.
pub fn mutate_tokens(rng: &mut Rng, tokens: &mut Vec<Vec<u8>>) {
    if tokens.is_empty() {
        tokens.push(any_token(rng, &[]));
        return;
    }
    if mutate_case(rng, tokens) || mutate_timer(rng, tokens) {
        return;
    }
    let at = rng.below(tokens.len());
    let other = rng.below(tokens.len());
    match rng.below(12) {
        0 => {
            tokens.remove(at);
        }
        1 => tokens.insert(at, tokens[at].clone()),
        2 => tokens.swap(at, other),
        3 => tokens[at] = tokens[other].clone(),
        4 => tokens[at] = any_token(rng, tokens),
        5 => {
            let token = any_token(rng, tokens);
            tokens.insert(at, token);
        }
        6 => tokens.truncate(at),
        7 => toggle_previous(rng, tokens),
        8 => change_number(rng, tokens),
        _ => statement(rng, tokens),
    }
}

fn any_token(rng: &mut Rng, tokens: &[Vec<u8>]) -> Vec<u8> {
    if !tokens.is_empty() && rng.chance(40) {
        return rng.choose(tokens).clone();
    }
    let word = some_word(rng).or_else(|| timers::some_word(rng));
    if let Some(word) = word.or_else(|| watches::some_word(rng)) {
        return word;
    }
    rng.choose(&TOKENS).as_bytes().to_vec()
}

/// Puts `_` before a name, or takes it away.
fn toggle_previous(rng: &mut Rng, tokens: &mut [Vec<u8>]) {
    let names: Vec<usize> = (0..tokens.len())
        .filter(|&i| matches!(tokens[i].first(), Some(&b) if b == b'_' || b.is_ascii_alphabetic()))
        .collect();
    if names.is_empty() {
        return;
    }
    let token = &mut tokens[*rng.choose(&names)];
    if token[0] == b'_' {
        token.remove(0);
    } else {
        token.insert(0, b'_');
    }
}

/// Puts another number in the place of one.
fn change_number(rng: &mut Rng, tokens: &mut [Vec<u8>]) {
    const NUMBERS: [&str; 6] = ["0", "00", "1", "9", "2147483647", "2147483648"];
    let digits: Vec<usize> = (0..tokens.len())
        .filter(|&i| matches!(tokens[i].first(), Some(b) if b.is_ascii_digit()))
        .collect();
    if !digits.is_empty() {
        tokens[*rng.choose(&digits)] = rng.choose(&NUMBERS).as_bytes().to_vec();
    }
}

/// Removes, repeats or moves everything between two semicolons.
fn statement(rng: &mut Rng, tokens: &mut Vec<Vec<u8>>) {
    let ends: Vec<usize> = (0..tokens.len()).filter(|&i| tokens[i] == b";").collect();
    if ends.is_empty() {
        return;
    }
    let chosen = rng.below(ends.len());
    let from = if chosen == 0 { 0 } else { ends[chosen - 1] + 1 };
    let part: Vec<Vec<u8>> = tokens[from..=ends[chosen]].to_vec();
    let target = ends[rng.below(ends.len())] + 1;
    match rng.below(3) {
        0 => {
            tokens.drain(from..=ends[chosen]);
        }
        1 => {
            tokens.splice(target..target, part);
        }
        _ => {
            tokens.drain(from..=ends[chosen]);
            let at = if target > from {
                target - part.len()
            } else {
                target
            };
            tokens.splice(at..at, part);
        }
    }
}

/// One edit of bytes.
pub fn mutate_bytes(rng: &mut Rng, text: &mut Vec<u8>) {
    let at = rng.below(text.len() + 1);
    let byte = any_byte(rng);
    match rng.below(6) {
        0 => text.truncate(at),
        1 if at < text.len() => {
            text.remove(at);
        }
        2 if at < text.len() => text[at] = byte,
        3 if at < text.len() => text[at] ^= 1 << rng.below(8),
        4 => {
            let end = (at + rng.below(12)).min(text.len());
            text.drain(at..end);
        }
        _ => text.insert(at, byte),
    }
}

fn any_byte(rng: &mut Rng) -> u8 {
    if rng.chance(30) {
        return rng.bits() as u8;
    }
    *rng.choose(b"_.-<>=;:()[]~&|+*/ \t\r\nabvxGX019")
}

/// A random list of tokens.
pub fn token_soup(rng: &mut Rng, most: usize) -> Vec<u8> {
    let count = rng.below(most + 1);
    let tokens: Vec<Vec<u8>> = (0..count).map(|_| any_token(rng, &[])).collect();
    render(rng, &tokens)
}

/// Up to `most` random bytes.
pub fn random_bytes(rng: &mut Rng, most: usize) -> Vec<u8> {
    let count = rng.below(most + 1);
    (0..count).map(|_| rng.bits() as u8).collect()
}
