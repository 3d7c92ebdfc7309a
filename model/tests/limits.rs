//! Texts at the limits and hand-made unsound images.

mod common;

use common::landed_and_all;
use rolvenko_model::features::in_force;
use std::collections::BTreeSet;

use rolvenko_model::generate::{limit_texts, unsound_images};
use rolvenko_model::{check, check_detail, read_text, write_image, Breach, Fault};

#[test]
fn texts_at_the_limits() {
    landed_and_all(texts_at_the_limits_in_force);
}

fn texts_at_the_limits_in_force() {
    let list = limit_texts();
    let mut numbers = BTreeSet::new();
    for limit in &list {
        let result = read_text(&limit.text);
        assert_eq!(
            result.as_ref().err().copied(),
            limit.refusal,
            "{}",
            limit.label
        );
        numbers.insert(limit.refusal.map_or(0, |refusal| refusal.number));
        if let Ok(program) = result {
            let image = write_image(&program);
            assert_eq!(check(&image), Ok(()), "{}", limit.label);
            assert!(2 * image.len() <= 3 * limit.text.len() + 4);
        }
    }
    let mut wanted = BTreeSet::from([0, 3, 7, 8, 9]);
    wanted.extend(in_force().watches.then_some(30));
    assert_eq!(numbers, wanted);
    assert!(list.len() > 60);
}

#[test]
fn unsound() {
    landed_and_all(unsound_in_force);
}

fn unsound_in_force() {
    let mut met = BTreeSet::new();
    for unsound in unsound_images() {
        let fault = Fault {
            breach: unsound.breach,
            place: unsound.place,
        };
        let found = check_detail(&unsound.image).err();
        assert_eq!(found, Some(fault), "{:?}", unsound.image);
        assert_eq!(check(&unsound.image), Err(fault.refusal()));
        let number = if unsound.breach == Breach::TooLong {
            9
        } else {
            11
        };
        assert_eq!(fault.refusal().number, number);
        met.insert(unsound.breach);
    }
    // Every breach of the list; `Breach::Missing` is the last of document 01.
    let features = in_force();
    let more = usize::from(features.pair_codes()) + 2 * usize::from(features.timer_codes());
    assert_eq!(met.len(), Breach::Missing as usize + 1 + more);
}
