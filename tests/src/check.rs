//! The image check against the model's.

use crate::compare::{deep_image, fence, hex, services, Options, Table};
use crate::shrink::{shrink, smaller_bytes};
use rolvenko_model::generate::{damaged_image, random_bytes, random_image, sound_image, unsound_images, Rng};
use rolvenko_model::{check_detail, IMAGE_LIMIT};

/// The model's answer, as the table names it.
fn name(image: &[u8]) -> String {
    match check_detail(image) {
        Ok(_) => "sound".to_owned(),
        Err(fault) => format!("{} {:?}", fault.refusal().number, fault.breach),
    }
}

fn differs(image: &[u8]) -> bool {
    let wanted = check_detail(image).map(|_| ()).map_err(|f| {
        let refusal = f.refusal();
        (refusal.number, refusal.place)
    });
    let lent = fence(image, 0x5A);
    let found = services::check(lent.read(image.len())).map_err(|r| (r.number, r.place));
    found != wanted || lent != fence(image, 0x5A)
}

fn compare(image: &[u8], table: &mut Table) -> Result<(), String> {
    if differs(image) {
        let small = shrink(&image.to_vec(), |i| smaller_bytes(i), |i| differs(i));
        return Err(format!(
            "image {}\narchive {:?}\nmodel   {:?}",
            hex(&small),
            services::check(&small),
            check_detail(&small).map(|_| ())
        ));
    }
    table.count(name(image));
    Ok(())
}

/// Images that need no chance: the hand-made ones, and the greatest lengths.
fn fixed(table: &mut Table) -> Result<(), String> {
    for unsound in unsound_images() {
        compare(&unsound.image, table)?;
    }
    for length in [0, 1, 2, IMAGE_LIMIT - 1, IMAGE_LIMIT, IMAGE_LIMIT + 1, 3 * IMAGE_LIMIT] {
        for byte in [0, 1, 9, 0x80, 0xff] {
            compare(&vec![byte; length], table)?;
        }
    }
    Ok(())
}

/// Every change of one byte, every insertion of a code byte, every deletion and every cut of an image.
fn neighbours(image: &[u8], table: &mut Table) -> Result<(), String> {
    for at in 0..image.len() {
        let mut next = image.to_vec();
        for byte in 0..=255 {
            next[at] = byte;
            compare(&next, table)?;
        }
        compare(&image[..at], table)?;
        let mut without = image.to_vec();
        without.remove(at);
        compare(&without, table)?;
    }
    for at in 0..=image.len() {
        for byte in 0..=26 {
            let mut more = image.to_vec();
            more.insert(at, byte);
            compare(&more, table)?;
        }
    }
    Ok(())
}

pub fn run(options: &Options, table: &mut Table) -> Result<(), String> {
    let mut rng = Rng::new(options.seed);
    fixed(table)?;
    let since = table.started();
    while !options.spent(since, table.calls) {
        let image = sound_image(&mut rng);
        compare(&image, table)?;
        if image.len() < 60 {
            neighbours(&image, table)?;
        }
        for _ in 0..200 {
            compare(&damaged_image(&mut rng, &image), table)?;
        }
        for _ in 0..10 {
            let deep = deep_image(&mut rng);
            compare(&deep, table)?;
            compare(&damaged_image(&mut rng, &deep), table)?;
        }
        for _ in 0..50 {
            compare(&random_image(&mut rng), table)?;
            compare(&random_bytes(&mut rng, 40), table)?;
        }
    }
    Ok(())
}
