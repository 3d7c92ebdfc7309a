//! Properties of accepted texts, by seed: scan and plain scan on lists of rows, sound
//! images, steps, lengths.

mod common;

use common::landed_and_all;
use rolvenko_model::features::in_force;
use rolvenko_model::generate::{row, state, state_in_range, text, Rng, Shape};
use rolvenko_model::program::Body;
use rolvenko_model::{
    check, instructions, plain_scan, read_text, scan, start, translate, write_image, Program,
};

const CANARY: u8 = 0xA5;

/// Translates into a buffer with bytes after the image, which must stay as they are.
fn translated(text: &[u8], program: &Program) -> Vec<u8> {
    let mut buffer = vec![CANARY; 3 * text.len() / 2 + 10];
    let length = translate(text, &mut buffer).expect("accepted text");
    assert!(buffer[length..].iter().all(|&byte| byte == CANARY));
    buffer.truncate(length);
    assert_eq!(buffer, write_image(program));
    buffer
}

/// "both lists of conditions equal token by token in spelling": so are their trees.
fn same_conditions(program: &Program) {
    for rule in &program.rules {
        if let Body::Change { cases, unchanged } = &rule.body {
            let conditions = cases.iter().map(|case| &case.condition);
            assert!(conditions.eq(unchanged.iter()));
        }
    }
}

/// Runs a list of rows by scan and by plain scan. Counts the rows by answer.
fn run_rows(rng: &mut Rng, text: &[u8], rows: usize, met: &mut [usize; 40]) {
    let program = read_text(text).expect("accepted text");
    same_conditions(&program);
    let image = translated(text, &program);
    assert_eq!(check(&image), Ok(()));
    assert!(2 * image.len() <= 3 * text.len() + 4);
    let ranges = program.state_ranges();
    // Start is lent a state of the right length with any values.
    let mut found = vec![rng.bits() as i32; ranges.len()];
    assert_eq!(start(&image, &mut found), Ok(()));
    assert_eq!(found, program.starts());
    let mut plain = program.starts();
    for _ in 0..rows {
        let row = row(rng, &program.row_ranges());
        let before = found.clone();
        let answer = scan(&image, &mut found, &row);
        let plain_answer = plain_scan(&program, &mut plain, &row);
        assert_eq!(found, plain, "{}", String::from_utf8_lossy(text));
        match answer {
            Ok(steps) => {
                assert_eq!(plain_answer, Ok(()));
                assert_eq!(steps as usize, instructions(&image));
                assert_eq!(found[..program.inputs], row[..program.inputs]);
                met[0] += 1;
            }
            Err(refusal) => {
                assert_eq!(plain_answer, Err(refusal.number));
                assert_eq!(refusal.place, 0);
                assert!(refusal.steps as usize <= instructions(&image));
                assert_eq!(refusal.steps == 0, matches!(refusal.number, 12 | 13));
                assert_eq!(found, before);
                met[refusal.number as usize] += 1;
            }
        }
    }
}

#[test]
fn scan_equals_plain_scan() {
    landed_and_all(scan_equals_plain_scan_in_force);
}

fn scan_equals_plain_scan_in_force() {
    let mut met = [0; 40];
    for seed in 0..4000 {
        let mut rng = Rng::new(seed);
        let shape = Shape::any(&mut rng);
        let text = text(&mut rng, shape);
        run_rows(&mut rng, &text, 12, &mut met);
    }
    println!("rows by answer: {met:?}");
    for answer in [0, 12, 13, 14, 15, 16, 17] {
        assert!(met[answer] > 200, "answer {answer}: {met:?}");
    }
    assert_eq!(met[22] > 200, in_force().pairs, "{met:?}");
    assert_eq!(met.iter().sum::<usize>(), 48_000);
}

#[test]
fn texts_of_many_names() {
    landed_and_all(texts_of_many_names_in_force);
}

fn texts_of_many_names_in_force() {
    let mut met = [0; 40];
    let mut most = 0;
    for seed in 0..150 {
        let mut rng = Rng::new(500_000 + seed);
        let text = text(&mut rng, Shape::MANY);
        most = most.max(read_text(&text).expect("accepted text").names.len());
        run_rows(&mut rng, &text, 5, &mut met);
    }
    println!("rows by answer: {met:?}, at most {most} names");
    assert!(most > 55 && met.iter().sum::<usize>() == 750);
}

/// From any state in range, scan and plain scan agree; 18 and 12 of a bad state are the
/// scan's alone.
#[test]
fn scan_from_any_state() {
    landed_and_all(scan_from_any_state_in_force);
}

fn scan_from_any_state_in_force() {
    let mut met = [0; 40];
    for seed in 0..3000 {
        let mut rng = Rng::new(1_000_000 + seed);
        let shape = Shape::any(&mut rng);
        let text = text(&mut rng, shape);
        let program = read_text(&text).expect("accepted text");
        let image = write_image(&program);
        let ranges = program.state_ranges();
        for _ in 0..8 {
            let mut plain = state_in_range(&mut rng, &ranges);
            let mut found = plain.clone();
            let row = row(&mut rng, &program.row_ranges());
            let number = scan(&image, &mut found, &row).err().map(|r| r.number);
            assert_eq!(plain_scan(&program, &mut plain, &row).err(), number);
            assert_eq!(plain, found);

            let lent = state(&mut rng, &ranges);
            let mut found = lent.clone();
            let number = scan(&image, &mut found, &row).err().map_or(0, |r| r.number);
            let right = lent.len() == ranges.len() && row.len() == program.row_length();
            assert_eq!(number == 12, !right);
            let outside = |(value, range): (&i32, &rolvenko_model::Range)| !range.holds(*value);
            let bad = right && lent.iter().zip(&ranges).any(outside);
            assert_eq!(number == 18, bad);
            if number != 0 {
                assert_eq!(found, lent);
            }
            met[number as usize] += 1;
        }
    }
    println!("scans by answer: {met:?}");
    for answer in [0, 12, 13, 14, 15, 16, 17, 18] {
        assert!(met[answer] > 100, "answer {answer}: {met:?}");
    }
}

/// The cases of the folder, with random rows.
#[test]
fn cases_with_random_rows() {
    let folder = concat!(env!("CARGO_MANIFEST_DIR"), "/../rulebooks");
    let mut met = [0; 40];
    for name in [
        "lock",
        "plc_square",
        "plc_square_small",
        "conveyor_count",
        "ton_discrete",
    ] {
        let text = std::fs::read(format!("{folder}/{name}.txt")).expect("case");
        for seed in 0..20 {
            run_rows(&mut Rng::new(seed), &text, 100, &mut met);
        }
    }
    assert!(met[0] > 5000 && met[12] > 0 && met[13] > 0);
    assert_eq!(met.iter().sum::<usize>(), 10_000);
}

/// The bound on the image length is met closely: 2 * image <= 3 * text + 4.
#[test]
fn longest_images() {
    for count in [0, 1, 10, 1000] {
        let text = format!("var v 0..9;v:GX(v=(1{}));", "+1".repeat(count));
        let length = common::image(&text).len();
        assert_eq!(length, 5 + 2 + 3 * count + 2);
        assert!(2 * length <= 3 * text.len() + 4);
    }
    assert_eq!(2 * common::image("").len(), 4);
}
