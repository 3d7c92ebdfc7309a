//! Damaged and random images: "the first header number or instruction that breaks
//! soundness", and scans of those that are sound.

mod common;

use common::landed_and_all;
use std::collections::BTreeMap;

use rolvenko_model::generate::{
    damaged_image, random_bytes, random_image, row_in_range, state_in_range, text, unsound_images,
    Rng, Shape,
};
use rolvenko_model::{
    check, check_detail, instructions, read_text, scan, start, write_image, Breach, Refusal,
};

/// An image that may be unsound.
fn some_image(rng: &mut Rng) -> Vec<u8> {
    let shape = Shape::any(rng);
    match rng.below(10) {
        0 => random_bytes(rng, 30),
        1..=3 => random_image(rng),
        _ => {
            let text = text(rng, shape);
            let sound = write_image(&read_text(&text).expect("accepted text"));
            damaged_image(rng, &sound)
        }
    }
}

/// Up to the breaking place nothing is broken; what stands after it does not count.
fn first_breach(rng: &mut Rng, image: &[u8], place: usize) {
    let refusal = Err(Refusal::new(11, place));
    let cut = check(&image[..place]);
    assert!(cut.is_ok() || cut == refusal, "{cut:?} before {place}");
    // Of an instruction or header number at most seven bytes are looked at.
    if let Some(head) = image.get(..place + 7) {
        let mut changed = head.to_vec();
        changed.extend(random_bytes(rng, 9));
        assert_eq!(check(&changed), refusal);
    }
}

#[test]
fn the_first_breach_is_answered() {
    landed_and_all(the_first_breach_is_answered_in_force);
}

fn the_first_breach_is_answered_in_force() {
    let mut met: BTreeMap<Breach, usize> = BTreeMap::new();
    let mut sound = 0;
    for seed in 0..20_000 {
        let mut rng = Rng::new(80_000_000 + seed);
        let image = some_image(&mut rng);
        match check_detail(&image) {
            Ok(_) => sound += 1,
            Err(fault) => {
                assert_eq!(fault.breach == Breach::TooLong, fault.refusal().number == 9);
                first_breach(&mut rng, &image, fault.place);
                *met.entry(fault.breach).or_default() += 1;
            }
        }
    }
    println!("{sound} sound, {met:?}");
    assert!(sound > 500 && met.len() > 14);
    for unsound in unsound_images() {
        if unsound.breach != Breach::TooLong {
            first_breach(&mut Rng::new(1), &unsound.image, unsound.place);
        }
    }
}

/// Sound images that no translator wrote: the steps of an accepted scan are the
/// instructions, and a refused one leaves the state.
#[test]
fn scans_of_sound_images() {
    landed_and_all(scans_of_sound_images_in_force);
}

fn scans_of_sound_images_in_force() {
    let mut met = [0; 40];
    for seed in 0..20_000 {
        let mut rng = Rng::new(90_000_000 + seed);
        let image = some_image(&mut rng);
        let Ok(header) = check_detail(&image) else {
            continue;
        };
        let mut state = vec![9; header.state_length()];
        assert_eq!(start(&image, &mut state), Ok(()));
        let starts: Vec<i32> = header
            .state_ranges()
            .iter()
            .map(|range| range.start)
            .collect();
        assert_eq!(state, starts);
        for _ in 0..4 {
            let row = row_in_range(&mut rng, &header.row_ranges());
            let lent = state_in_range(&mut rng, &header.state_ranges());
            let mut found = lent.clone();
            match scan(&image, &mut found, &row) {
                Ok(steps) => {
                    assert_eq!(steps as usize, instructions(&image));
                    assert_eq!(found[..header.inputs], row[..header.inputs]);
                    let ranges = &header.state_ranges();
                    assert!(found.iter().zip(ranges).all(|(v, range)| range.holds(*v)));
                    met[0] += 1;
                }
                Err(refusal) => {
                    assert!(matches!(refusal.number, 14..=17 | 22));
                    assert!(refusal.steps > 0);
                    assert_eq!(found, lent);
                    met[refusal.number as usize] += 1;
                }
            }
        }
    }
    println!("scans by answer: {met:?}");
    assert!([0, 14, 15, 16, 17].iter().all(|&number| met[number] > 50));
}
