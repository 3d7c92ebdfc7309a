//! Request A.11: a buffer for any text. "For every accepted text of document 01's forms with
//! A.6's, twice the image length is at most three times the text length plus 4."

mod common;

use common::image;
use rolvenko_model::features::with;
use rolvenko_model::generate::{limit_texts, text, text_tokens, Rng, Shape};
use rolvenko_model::{read_text, translate, write_image, Features, Refusal, TEXT_LIMIT};

/// "So a buffer of 49,154 bytes never meets 10."
const ROOM: usize = 49_154;

/// The forms of the request: names in one case or in any.
const FORMS: [Features; 2] = [
    Features {
        pairs: true,
        ..Features::NONE
    },
    Features {
        pairs: true,
        names_without_case: true,
        ..Features::NONE
    },
];

/// How much shorter the image is than it may be, in half bytes.
fn slack(text: &[u8]) -> usize {
    let length = write_image(&read_text(text).expect("an accepted text")).len();
    (3 * text.len() + 4)
        .checked_sub(2 * length)
        .unwrap_or_else(|| panic!("{length}: {}", String::from_utf8_lossy(text)))
}

/// Tokens with no more white space than they need.
fn shortest(tokens: &[Vec<u8>]) -> Vec<u8> {
    let mut text: Vec<u8> = Vec::new();
    for token in tokens {
        let word = |byte: Option<&u8>| byte.is_some_and(u8::is_ascii_alphanumeric);
        if word(text.last()) && word(token.first()) {
            text.push(b' ');
        }
        text.extend(token);
    }
    text
}

/// The empty text, L1, meets the bound with equality; 49,154 is the bound of the longest.
#[test]
fn equality() {
    assert_eq!(image("").len(), 2);
    assert_eq!(slack(b""), 0);
    assert_eq!(2 * ROOM, 3 * TEXT_LIMIT + 4);
    for blank in 1..9 {
        assert_eq!(slack(&b" ".repeat(blank)), 3 * blank);
    }
    assert_eq!(translate(b"", &mut [0; 2]), Ok(2));
    assert_eq!(translate(b"", &mut [0; 1]), Err(Refusal::new(10, 0)));
}

#[test]
fn generated_texts() {
    for (index, features) in FORMS.into_iter().enumerate() {
        with(features, || {
            let mut least = usize::MAX;
            for seed in 0..6000 {
                let mut rng = Rng::new(130_000_000 + 1_000_000 * index as u64 + seed);
                let shape = match rng.below(9) {
                    0 => Shape::MANY,
                    _ => Shape::any(&mut rng),
                };
                slack(&text(&mut rng, shape));
                let close = shortest(&text_tokens(&mut rng, shape));
                if close.len() > TEXT_LIMIT {
                    continue;
                }
                let left = slack(&close);
                // Texts without rules come near the bound; they are not what is sought.
                if close.contains(&b':') {
                    least = least.min(left);
                }
            }
            println!("least slack of a text with a rule: {least}");
            assert!(least < 100, "{least}");
        });
    }
    // The bound holds for texts with timers and watches too.
    with(Features::ALL, || {
        for seed in 0..3000 {
            let mut rng = Rng::new(133_000_000 + seed);
            let shape = Shape::any(&mut rng);
            slack(&shortest(&text_tokens(&mut rng, shape)));
        }
    });
}

/// The longest images: two bytes of text for three of image.
#[test]
fn longest_images() {
    for sign in ["+1", "-1", "*1", "/1"] {
        let most = (TEXT_LIMIT - "var v 0..1;v:GX(v=(1));".len()) / 2;
        for count in [0, 1, 2, 1000, most] {
            let text = format!("var v 0..1;v:GX(v=(1{}));", sign.repeat(count));
            assert_eq!(slack(text.as_bytes()), 55);
            let length = image(&text).len();
            let mut buffer = vec![7; ROOM];
            assert_eq!(translate(text.as_bytes(), &mut buffer), Ok(length));
            assert_eq!(
                translate(text.as_bytes(), &mut buffer[..length]),
                Ok(length)
            );
            let short = translate(text.as_bytes(), &mut buffer[..length - 1]);
            assert_eq!(short, Err(Refusal::new(10, text.len())));
        }
    }
}

/// No accepted text at a limit meets 10 with the room named.
#[test]
fn room_for_any_text() {
    for features in FORMS.into_iter().chain([Features::LANDED, Features::ALL]) {
        with(features, || {
            let mut buffer = vec![0; ROOM];
            for limit in limit_texts() {
                let answer = translate(&limit.text, &mut buffer);
                assert_eq!(answer.err(), limit.refusal, "{}", limit.label);
            }
        });
    }
}
