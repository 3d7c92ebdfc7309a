//! Document 02, A.11: the buffer that does for any text, at its edges.

use rolvenko::{translate, Refusal, IMAGE_ROOM, TEXT_LIMIT};

const TOO_SHORT: u8 = 10;

/// The longest product there is room for, which makes three bytes of image of two of text, and spaces up to the limit.
fn longest() -> Vec<u8> {
    let mut text = b"var v 0..1;v:GX(v=(1".to_vec();
    while text.len() < 32_762 {
        text.extend(b"*1");
    }
    text.extend(b"));");
    text.resize(TEXT_LIMIT, b' ');
    text
}

#[test]
fn the_empty_text_meets_the_bound() {
    let mut image = [9; 2];
    assert_eq!(translate(b"", &mut image), Ok(2));
    assert_eq!(image, [0, 0]);
    assert_eq!(translate(b"", &mut image[..1]), Err(Refusal { number: TOO_SHORT, place: 0 }));
}

#[test]
fn the_longest_product_stays_below_it() {
    let text = longest();
    for room in [IMAGE_ROOM, 49_122] {
        assert_eq!(translate(&text, &mut vec![0; room]), Ok(49_122));
    }
    let mut image = vec![7; 49_121];
    assert_eq!(translate(&text, &mut image), Err(Refusal { number: TOO_SHORT, place: TEXT_LIMIT }));
    assert!(image.iter().all(|&b| b == 7));
}
