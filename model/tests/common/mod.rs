//! Helpers of the tests.

#![allow(dead_code)]

use rolvenko_model::features::with;
use rolvenko_model::generate::marked;
use rolvenko_model::{read_text, translate, write_image, Features, Refusal};

/// Number and place of the answer to a text; 0 at 0 if it is accepted.
pub fn answer(text: &[u8]) -> (u8, usize) {
    let mut buffer = vec![0; 65_536];
    match translate(text, &mut buffer) {
        Ok(_) => (0, 0),
        Err(Refusal { number, place }) => (number, place),
    }
}

/// Expects the refusal `number` at the mark `@` of a text; for 0, that it is accepted.
pub fn expect(number: u8, text: &str) {
    let (bytes, place) = marked(text);
    assert_eq!(place.is_some(), number != 0, "mark in {text}");
    assert_eq!(answer(&bytes), (number, place.unwrap_or(0)), "{text}");
}

/// Does the work with the features that have landed, then with all.
pub fn landed_and_all(work: impl Fn()) {
    for features in [Features::LANDED, Features::ALL] {
        with(features, &work);
    }
}

/// The image of an accepted text.
pub fn image(text: &str) -> Vec<u8> {
    match read_text(text.as_bytes()) {
        Ok(program) => write_image(&program),
        Err(refusal) => panic!("{refusal:?} in {text}"),
    }
}

/// A function of two inputs without limits, `v = (e)`, and its value.
pub fn evaluate(expression: &str, a: i32, b: i32) -> Result<i32, u8> {
    let whole = "-2147483648..2147483647";
    let text =
        format!("input a {whole}; input b {whole}; var v {whole}; v: GX(v = ({expression}));");
    let image = image(&text);
    let mut state = [0; 3];
    match rolvenko_model::scan(&image, &mut state, &[a, b]) {
        Ok(_) => Ok(state[2]),
        Err(refusal) => {
            assert_eq!(state, [0; 3]);
            Err(refusal.number)
        }
    }
}

/// Bytes as hexadecimal numbers with spaces.
pub fn hex(bytes: &[u8]) -> String {
    let list: Vec<String> = bytes.iter().map(|byte| format!("{byte:02X}")).collect();
    list.join(" ")
}
