//! Inputs of the farm clock: texts with its names, tables and UTC minutes near every
//! limit.

use super::letter_case::{is_word, vary_names};
use super::mutate::edited;
use super::text::{render, text_tokens, Shape};
use super::Rng;
use crate::token::same_names;
use crate::TEXT_LIMIT;

const NAMES: [&str; 3] = ["day", "minute", "again"];
/// Names that are others.
const LIKE_NAMES: [&str; 8] = [
    "Day", "days", "da", "MINUTE", "minut", "minute2", "again0", "gain",
];
const LAST_MINUTE: i64 = 2_147_483_647;

/// A random accepted text in which some of the inputs and variables have names that the
/// clock fills, or others like them.
pub fn clock_text(rng: &mut Rng) -> Vec<u8> {
    loop {
        let tokens = clock_tokens(rng);
        let text = render(rng, &tokens);
        if text.len() <= TEXT_LIMIT {
            return text;
        }
    }
}

/// Such a text after one to three edits.
pub fn mutated_clock_text(rng: &mut Rng) -> Vec<u8> {
    let tokens = clock_tokens(rng);
    edited(rng, tokens)
}

fn clock_tokens(rng: &mut Rng) -> Vec<Vec<u8>> {
    const INPUTS: Shape = Shape {
        inputs: 8,
        variables: 2,
        ..Shape::TINY
    };
    let shape = match rng.below(10) {
        0 => Shape::MANY,
        1 | 2 => Shape::any(rng),
        _ => INPUTS,
    };
    let mut tokens = text_tokens(rng, shape);
    let first = rng.below(NAMES.len());
    for name in NAMES.iter().cycle().skip(first).take(NAMES.len()) {
        if rng.chance(85) {
            rename(rng, &mut tokens, name.as_bytes());
        }
    }
    if rng.chance(30) {
        let name = *rng.choose(&LIKE_NAMES);
        rename(rng, &mut tokens, name.as_bytes());
    }
    tokens
}

/// Gives a declared name, one that is not filled yet, this spelling wherever it stands,
/// unless another has it.
pub(super) fn rename(rng: &mut Rng, tokens: &mut [Vec<u8>], spelling: &[u8]) {
    let mut declared: Vec<Vec<u8>> = tokens
        .windows(2)
        .filter(|pair| [&b"input"[..], b"var", b"timer"].contains(&&pair[0][..]))
        .map(|pair| pair[1].clone())
        .collect();
    let taken = declared.iter().any(|name| same_names(name, spelling));
    if taken || is_word(spelling) {
        return;
    }
    declared.retain(|name| {
        !NAMES
            .iter()
            .any(|filled| same_names(filled.as_bytes(), name))
    });
    if declared.is_empty() {
        return;
    }
    let name = rng.choose(&declared);
    let previous = [b"_", &name[..]].concat();
    for token in tokens.iter_mut() {
        if same_names(token, name) {
            *token = spelling.to_vec();
        } else if same_names(token, &previous) {
            *token = [b"_", spelling].concat();
        }
    }
    vary_names(rng, tokens);
}

/// A farm table within its limits: the UTC minute and the offset of each entry in turn.
pub fn farm_table(rng: &mut Rng) -> Vec<i64> {
    let count = *rng.choose(&[1, 2, 2, 3, 3, 4, 9, 31, 32]);
    entries(rng, count)
}

/// `count` entries, at most 40, with all but `count` within the limits.
fn entries(rng: &mut Rng, count: usize) -> Vec<i64> {
    let widest = *rng.choose(&[1, 3, 60, 500, 2_000, 50_000_000]);
    let gaps: Vec<i64> = (1..count).map(|_| rng.between(1, widest)).collect();
    let room = LAST_MINUTE - gaps.iter().sum::<i64>();
    let mut minute = match rng.below(5) {
        0 => 0,
        1 => room,
        2 => rng.between(0, room.min(2_000)),
        _ => rng.between(0, room),
    };
    let mut table = vec![minute, offset(rng)];
    for gap in gaps {
        minute += gap;
        table.extend([minute, offset(rng)]);
    }
    table
}

fn offset(rng: &mut Rng) -> i64 {
    match rng.below(6) {
        0 => -720,
        1 => 840,
        2 => *rng.choose(&[-1, 0, 60, 120]),
        _ => rng.between(-720, 840),
    }
}

/// A farm table that breaks a limit.
pub fn broken_table(rng: &mut Rng) -> Vec<i64> {
    const MINUTES: [i64; 5] = [-1, LAST_MINUTE + 1, 1 << 32, i64::MIN, i64::MAX];
    const OFFSETS: [i64; 6] = [-721, 841, 1 << 32, -(1 << 32), i64::MIN, i64::MAX];
    let mut table = farm_table(rng);
    let last = table.len() - 2;
    let any = 2 * rng.below(table.len() / 2);
    let at = *rng.choose(&[0, last, any]);
    match rng.below(8) {
        0 => table.clear(),
        1 => table.truncate(at + 1),
        2 => table.push(0),
        3 => {
            let count = *rng.choose(&[33, 34, 40]);
            return entries(rng, count);
        }
        4 => table[at] = *rng.choose(&MINUTES),
        5 => table[at + 1] = *rng.choose(&OFFSETS),
        6 => table.extend([table[last], offset(rng)]),
        _ => table.extend([table[at] - 1, offset(rng)]),
    }
    table
}

/// A UTC minute: mostly near one of the table's minutes, else at the limits, past them or
/// anywhere.
pub fn utc_minute(rng: &mut Rng, table: &[i64]) -> i64 {
    const LIMITS: [i64; 8] = [
        0,
        LAST_MINUTE,
        -1,
        LAST_MINUTE + 1,
        1 << 32,
        -LAST_MINUTE,
        i64::MIN,
        i64::MAX,
    ];
    match rng.below(12) {
        0 => *rng.choose(&LIMITS),
        1 => rng.between(0, LAST_MINUTE),
        2 => rng.between(0, 3_200),
        _ if table.len() < 2 => 0,
        _ => {
            let at = 2 * rng.below(table.len() / 2);
            let near = table[at].saturating_add(rng.between(-3, 3));
            let later = near.saturating_add(apart(rng, table, at));
            later.clamp(0, LAST_MINUTE)
        }
    }
}

/// How far two offsets are apart, the second that of the entry at `at`: so long its hours
/// come again. Now and then another number of minutes or none.
fn apart(rng: &mut Rng, table: &[i64], at: usize) -> i64 {
    let other = 2 * rng.below(table.len() / 2);
    match rng.below(3) {
        0 => 0,
        1 => rng.between(-1_600, 1_600),
        _ => table[other + 1].saturating_sub(table[at + 1]),
    }
}
