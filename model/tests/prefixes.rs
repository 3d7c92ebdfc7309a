//! "Checks of a text go token by token": properties of the answers to faulty texts.

mod common;

use common::{answer, landed_and_all};
use rolvenko_model::generate::{mutated_text, render, token_soup, Rng, Shape};
use rolvenko_model::token::{next_token, tokens, Kind};

/// A faulty or accepted text.
fn some_text(rng: &mut Rng) -> Vec<u8> {
    let shape = Shape::any(rng);
    if rng.chance(10) {
        token_soup(rng, 12)
    } else {
        mutated_text(rng, shape)
    }
}

/// Up to the refused token nothing is at fault; after it nothing counts.
#[test]
fn the_first_fault_is_answered() {
    landed_and_all(the_first_fault_is_answered_in_force);
}

fn the_first_fault_is_answered_in_force() {
    let mut met = [0; 31];
    for seed in 0..20_000 {
        let mut rng = Rng::new(40_000_000 + seed);
        let text = some_text(&mut rng);
        let (number, place) = answer(&text);
        met[number as usize] += 1;
        if number == 0 {
            continue;
        }
        // The text before the token has no fault but the end.
        let (cut, end) = answer(&text[..place]);
        if cut != 0 {
            assert!(cut == 2 || cut == 6, "{cut} before {number}");
            assert_eq!(end, place);
        }
        // The place is that of a token or of the end.
        let token = next_token(&text, place);
        assert_eq!(token.place, place);
        assert_eq!(number == 1, token.kind == Kind::Bad);
        if token.kind == Kind::End {
            assert!(number == 2 || number == 6);
            continue;
        }
        let mut changed = text[..place + token.spelling.len()].to_vec();
        changed.push(b' ');
        changed.extend(token_soup(&mut rng, 5));
        assert_eq!(answer(&changed), (number, place));
    }
    println!("texts by answer: {met:?}");
    assert!(met[..9].iter().all(|&count| count > 10));
}

/// White space has no influence on the number, nor on the token that is answered.
#[test]
fn white_space_has_no_influence() {
    landed_and_all(white_space_has_no_influence_in_force);
}

fn white_space_has_no_influence_in_force() {
    let mut met = [0; 31];
    for seed in 0..10_000 {
        let mut rng = Rng::new(50_000_000 + seed);
        let text = some_text(&mut rng);
        let list = tokens(&text);
        let spellings: Vec<Vec<u8>> = list.iter().map(|t| t.spelling.to_vec()).collect();
        let again = render(&mut rng, &spellings);
        let second = tokens(&again);
        if list.iter().any(|token| token.kind == Kind::Bad) {
            continue;
        }
        assert_eq!(list.len(), second.len());
        let index = |list: &[rolvenko_model::token::Token], place: usize| {
            let found = list.iter().position(|token| token.place == place);
            found.unwrap_or(list.len())
        };
        let ((number, place), (same, other)) = (answer(&text), answer(&again));
        assert_eq!(number, same);
        if number != 0 {
            assert_eq!(index(&list, place), index(&second, other));
        }
        met[number as usize] += 1;
    }
    assert!(
        [0, 2, 3, 4, 5, 6, 7, 8]
            .iter()
            .all(|&number| met[number] > 3),
        "{met:?}"
    );
}
