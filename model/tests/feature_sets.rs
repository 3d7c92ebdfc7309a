//! Every set of features: each request is on or off by itself.

mod common;
mod grammar;

use rolvenko_model::features::with;
use rolvenko_model::formula::satisfies_timed;
use rolvenko_model::generate::{
    damaged_image, mutated_text, row, text, unsound_images, Rng, Shape,
};
use rolvenko_model::{
    check, check_detail, instructions, parse, plain_scan, read_text, scan, write_image, Features,
};

/// The parser against the second reader.
fn readers(rng: &mut Rng, shape: Shape) {
    let text = mutated_text(rng, shape);
    let parsed = parse(&text).err().map(|r| (r.number, r.place));
    let spelled = String::from_utf8_lossy(&text);
    assert_eq!(parsed, grammar::read(&text), "{spelled}");
}

/// Scan against plain scan, and the formulas.
fn scans(rng: &mut Rng, shape: Shape) {
    let text = text(rng, shape);
    let program = read_text(&text).expect("an accepted text");
    let image = write_image(&program);
    assert_eq!(check(&image), Ok(()));
    let (mut found, mut plain) = (program.starts(), program.starts());
    let wide = |state: &[i32]| -> Vec<i64> { state.iter().map(|&value| value.into()).collect() };
    let (mut trace, mut times) = (vec![wide(&found)], Vec::new());
    for _ in 0..6 {
        let row = row(rng, &program.row_ranges());
        let answer = scan(&image, &mut found, &row);
        let number = answer.map(|_| ()).map_err(|r| r.number);
        assert_eq!(plain_scan(&program, &mut plain, &row), number);
        assert_eq!(plain, found);
        if let Ok(steps) = answer {
            assert_eq!(steps as usize, instructions(&image));
            trace.push(wide(&found));
            times.push(row.get(program.inputs).map_or(0, |&time| time.into()));
        }
    }
    assert!(satisfies_timed(&program, &trace, &times));
    // A damaged image is answered somehow, within itself.
    let damaged = damaged_image(rng, &image);
    if let Err(fault) = check_detail(&damaged) {
        assert!(fault.place <= damaged.len());
    }
}

#[test]
fn every_set() {
    let sets = Features::sets();
    assert_eq!(sets.len(), 18);
    assert!(sets.contains(&Features::NONE) && sets.contains(&Features::ALL));
    for (index, features) in sets.into_iter().enumerate() {
        with(features, || {
            for seed in 0..300 {
                let mut rng = Rng::new(140_000_000 + 1000 * index as u64 + seed);
                let shape = Shape::any(&mut rng);
                readers(&mut rng, shape);
                scans(&mut rng, shape);
            }
            for unsound in unsound_images() {
                let found = check_detail(&unsound.image).expect_err("unsound");
                assert_eq!((found.breach, found.place), (unsound.breach, unsound.place));
            }
        });
    }
}

/// A text has what its features allow, and no more.
#[test]
fn what_a_feature_brings() {
    let pair =
        "var v 0..1; v+: GX(v > _v -> [1 = 2] & v = (1)); v-: GX(v < _v -> [1 = 2] & v = (0));";
    let timer = "var v 0..1; timer t of v limit 1; v: GX(v = (1));";
    let watch = "var v 0..1; v: GX(v = (1)); watch: G([v = 1]);";
    let cases = "var v 0..1; V: GX(v = (1));";
    for features in Features::sets() {
        let accepted = with(features, || {
            [cases, pair, timer, watch].map(|text| read_text(text.as_bytes()).is_ok())
        });
        let wanted = [
            features.names_without_case,
            features.pairs,
            features.timers,
            features.watches,
        ];
        assert_eq!(accepted, wanted);
    }
}
