//! The parser against the second reader, on texts of every kind.

mod common;
mod grammar;

use common::landed_and_all;
use rolvenko_model::features::in_force;
use rolvenko_model::generate::{
    limit_texts, mutate_bytes, mutate_tokens, mutated_text, random_bytes, render, text,
    text_tokens, token_soup, Rng, Shape,
};
use rolvenko_model::parse;

/// Compares the two on a text; the answer is the number.
fn compare(text: &[u8]) -> usize {
    let parsed = parse(text)
        .err()
        .map(|refusal| (refusal.number, refusal.place));
    assert_eq!(
        parsed,
        grammar::read(text),
        "{}",
        String::from_utf8_lossy(text)
    );
    parsed.map_or(0, |answer| answer.0 as usize)
}

#[test]
fn the_readers_agree() {
    landed_and_all(the_readers_agree_in_force);
}

fn the_readers_agree_in_force() {
    let mut met = [0; 31];
    for seed in 0..12_000 {
        let mut rng = Rng::new(60_000_000 + seed);
        let shape = *rng.choose(&[Shape::TINY, Shape::SMALL, Shape::SMALL, Shape::WIDE]);
        let bytes = match seed % 10 {
            0 => text(&mut rng, shape),
            1 => token_soup(&mut rng, 15),
            2 => random_bytes(&mut rng, 15),
            _ => mutated_text(&mut rng, shape),
        };
        met[compare(&bytes)] += 1;
    }
    println!("texts by answer: {met:?}");
    assert!(met[..9].iter().all(|&count| count > 20), "{met:?}");
    assert_eq!(met[23] > 2, in_force().timers, "{met:?}");
}

/// Small texts, edited at every token in turn.
#[test]
fn the_readers_agree_on_small_texts() {
    landed_and_all(the_readers_agree_on_small_texts_in_force);
}

fn the_readers_agree_on_small_texts_in_force() {
    let mut met = [0; 31];
    for seed in 0..4000 {
        let mut rng = Rng::new(70_000_000 + seed);
        let mut tokens = text_tokens(&mut rng, Shape::TINY);
        // One edit only, so that late tokens are reached.
        mutate_tokens(&mut rng, &mut tokens);
        let mut bytes = render(&mut rng, &tokens);
        met[compare(&bytes)] += 1;
        mutate_bytes(&mut rng, &mut bytes);
        met[compare(&bytes)] += 1;
    }
    println!("texts by answer: {met:?}");
    assert!(met[..8].iter().all(|&count| count > 20), "{met:?}");
}

#[test]
fn the_readers_agree_at_the_limits() {
    landed_and_all(the_readers_agree_at_the_limits_in_force);
}

fn the_readers_agree_at_the_limits_in_force() {
    let mut met = [0; 31];
    for limit in limit_texts() {
        // The second reader is slow on very long lists of tokens.
        if limit.text.len() < 5000 {
            met[compare(&limit.text)] += 1;
        }
    }
    assert!(
        met[0] > 10 && met[3] > 5 && met[7] > 0 && met[8] > 10,
        "{met:?}"
    );
}
