//! "Every refusal leaves all lent memory as found; success writes only the image's
//! bytes, or the state."

mod common;

use common::landed_and_all;
use rolvenko_model::generate::{
    damaged_image, limit_texts, mutated_text, random_bytes, row, state, text, token_soup, Rng,
    Shape,
};
use rolvenko_model::{check, read_text, scan, start, translate, write_image, Refusal};

/// Translates into a buffer of random bytes: all stay but those of a written image.
fn lend_buffer(rng: &mut Rng, text: &[u8], size: usize) -> Result<usize, Refusal> {
    let found: Vec<u8> = (0..size).map(|_| rng.bits() as u8).collect();
    let mut buffer = found.clone();
    let result = translate(text, &mut buffer);
    match result {
        Ok(length) => {
            assert_eq!(buffer[length..], found[length..]);
            assert_eq!(buffer[..length], write_image(&read_text(text).unwrap()));
        }
        Err(_) => assert_eq!(buffer, found),
    }
    result
}

#[test]
fn translate_leaves_the_rest() {
    landed_and_all(translate_leaves_the_rest_in_force);
}

fn translate_leaves_the_rest_in_force() {
    let mut refused = 0;
    for seed in 0..3000 {
        let mut rng = Rng::new(6_000_000 + seed);
        let bytes = match seed % 3 {
            0 => mutated_text(&mut rng, Shape::SMALL),
            1 => token_soup(&mut rng, 20),
            _ => random_bytes(&mut rng, 20),
        };
        let size = rng.below(600);
        refused += usize::from(lend_buffer(&mut rng, &bytes, size).is_err());
    }
    assert!(refused > 2000);
    for limit in limit_texts() {
        let result = lend_buffer(&mut Rng::new(1), &limit.text, 70_000);
        assert_eq!(result.err(), limit.refusal, "{}", limit.label);
    }
}

/// 10 at the text length for every buffer shorter than the image, and for no other.
#[test]
fn short_buffers() {
    landed_and_all(short_buffers_in_force);
}

fn short_buffers_in_force() {
    let mut refused = 0;
    for seed in 0..300 {
        let mut rng = Rng::new(7_000_000 + seed);
        let text = text(&mut rng, Shape::TINY);
        let length = write_image(&read_text(&text).unwrap()).len();
        for size in 0..length + 3 {
            let result = lend_buffer(&mut rng, &text, size);
            if size < length {
                assert_eq!(result, Err(Refusal::new(10, text.len())));
                refused += 1;
            } else {
                assert_eq!(result, Ok(length));
            }
        }
    }
    assert!(refused > 1000);
    // A fault of the text comes before 10; 9 before all else.
    assert_eq!(translate(b"$", &mut []), Err(Refusal::new(1, 0)));
    assert_eq!(translate(&[b' '; 32_769], &mut []), Err(Refusal::new(9, 0)));
    assert_eq!(translate(b" ", &mut [0]), Err(Refusal::new(10, 1)));
}

/// Start and scan of sound and damaged images, with states and rows of any kind.
#[test]
fn start_and_scan_leave_the_state() {
    landed_and_all(start_and_scan_leave_the_state_in_force);
}

fn start_and_scan_leave_the_state_in_force() {
    let mut met = [0; 40];
    for seed in 0..6000 {
        let mut rng = Rng::new(8_000_000 + seed);
        let shape = Shape::any(&mut rng);
        let text = text(&mut rng, shape);
        let program = read_text(&text).unwrap();
        let sound = write_image(&program);
        let image = match seed % 2 {
            0 => damaged_image(&mut rng, &sound),
            _ => sound,
        };
        let ranges = program.state_ranges();
        let lent = state(&mut rng, &ranges);
        let row = row(&mut rng, &program.row_ranges());
        let checked = check(&image);

        let mut found = lent.clone();
        match start(&image, &mut found) {
            Ok(()) => assert_eq!(checked, Ok(())),
            Err(refusal) => {
                assert_eq!(found, lent);
                assert_eq!(checked.err().unwrap_or(Refusal::new(12, 0)), refusal);
                met[refusal.number as usize] += 1;
            }
        }

        let mut found = lent.clone();
        match scan(&image, &mut found, &row) {
            Ok(_) => assert_eq!(checked, Ok(())),
            Err(refusal) => {
                assert_eq!(found, lent);
                let place = checked.err().map_or(0, |fault| fault.place);
                assert_eq!(refusal.place, place);
                assert_eq!(refusal.number == 11, checked.is_err());
                met[refusal.number as usize] += 1;
            }
        }
    }
    println!("refusals: {met:?}");
    assert!(met[11] > 2000 && met[12..=18].iter().all(|&count| count > 50));
}
