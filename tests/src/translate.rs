//! Translation against the model's: answer, place, every byte of the buffer and around it.

use crate::compare::{services, Options, Table};
use crate::writer::Writer;
use rolvenko_model::generate::{limit_texts, mutate_bytes, mutated_text, random_bytes, text, token_soup, Rng, Shape};
use rolvenko_model::token::words;
use rolvenko_model::{read_text, write_image};

const TRANSLATE: Writer = Writer {
    archive: |text, image| services::translate(text, image).map_err(|r| (r.number, r.place)),
    model: |text, image| rolvenko_model::translate(text, image).map_err(|r| (r.number, r.place)),
};

/// The text with letters of its names in other cases; words of the grammar stay.
fn recased(rng: &mut Rng, source: &[u8]) -> Vec<u8> {
    let mut text = source.to_vec();
    let mut at = 0;
    while at < text.len() {
        let run = |more: fn(&u8) -> bool| at + text[at..].iter().take_while(|byte| more(byte)).count();
        let end = match text[at] {
            b'0'..=b'9' => run(u8::is_ascii_digit),
            b if b.is_ascii_alphabetic() => run(u8::is_ascii_alphanumeric),
            _ => at + 1,
        };
        let token = &mut text[at..end];
        if !words().any(|(word, _)| word.eq_ignore_ascii_case(token)) {
            for byte in token.iter_mut().filter(|byte| byte.is_ascii_alphabetic()) {
                *byte ^= (rng.below(2) as u8) << 5;
            }
        }
        at = end;
    }
    text
}

/// Request A.2: a text whose names are in other cases has the same answer and image.
fn in_other_cases(rng: &mut Rng, source: &[u8]) -> Result<(), String> {
    let translated = |text: &[u8]| {
        let mut image = vec![0xA5; rolvenko::IMAGE_ROOM];
        let answer = services::translate(text, &mut image).map_err(|r| (r.number, r.place));
        (answer, image)
    };
    let other = recased(rng, source);
    if translated(source) == translated(&other) {
        return Ok(());
    }
    Err(format!("text {:?}\nnames in other cases {:?}", String::from_utf8_lossy(source), String::from_utf8_lossy(&other)))
}

/// Every buffer length around the image's.
fn around(source: &[u8], table: &mut Table) -> Result<(), String> {
    let Ok(program) = read_text(source) else {
        return Ok(());
    };
    TRANSLATE.around(source, write_image(&program).len(), table)
}

/// Every cut of a text.
fn cuts(source: &[u8], table: &mut Table) -> Result<(), String> {
    for end in 0..source.len() {
        TRANSLATE.compare(&source[..end], 4 * source.len() + 8, table)?;
    }
    Ok(())
}

pub fn run(options: &Options, table: &mut Table) -> Result<(), String> {
    let mut rng = Rng::new(options.seed);
    for limit in limit_texts() {
        TRANSLATE.compare(&limit.text, rolvenko::IMAGE_ROOM, table)?;
        around(&limit.text, table)?;
        let mut edited = limit.text.clone();
        mutate_bytes(&mut rng, &mut edited);
        TRANSLATE.compare(&edited, rolvenko::IMAGE_ROOM, table)?;
    }
    let since = table.started();
    while !options.spent(since, table.calls) {
        let shape = if rng.chance(3) { Shape::MANY } else { Shape::any(&mut rng) };
        let source = text(&mut rng, shape);
        in_other_cases(&mut rng, &source)?;
        around(&source, table)?;
        if source.len() < 400 {
            cuts(&source, table)?;
        }
        for _ in 0..60 {
            let mutated = mutated_text(&mut rng, shape);
            in_other_cases(&mut rng, &mutated)?;
            TRANSLATE.compare(&mutated, 4 * mutated.len() + 8, table)?;
        }
        for _ in 0..10 {
            TRANSLATE.compare(&token_soup(&mut rng, 30), 200, table)?;
            TRANSLATE.compare(&random_bytes(&mut rng, 40), 200, table)?;
        }
    }
    Ok(())
}
