//! Request A.10: the closed profile.

mod common;

use common::{image, landed_and_all};
use rolvenko_model::generate::{
    damaged_image, limit_product, one_refused, profile_image, row_in_range, state_in_range, Rng,
};
use rolvenko_model::{
    check_detail, closed, combination, read_text, scan, start, write_combination, write_image,
    Combination, Refusal, IMAGE_LIMIT,
};

const WHOLE: &str = "-2147483648..2147483647";
const ADDS: &str = "input i 0..1; var v 0..3; v: GX(v = (_v + i));";

/// A rule set that is accepted after just so many scans.
fn accepts(image: &[u8], scans: u32) {
    assert_eq!(closed(image), Ok(()));
    assert!(combination(image, scans - 1).is_ok());
    assert_eq!(combination(image, scans), Err(Refusal::new(12, 0)));
}

/// A rule set that is 27 after so many scans, at this state and row.
fn refuses(text: &str, before: usize, state: &[i32], row: &[i32], number: u8) {
    let image = image(text);
    let found = closed(&image).expect_err("a refused scan");
    assert_eq!(found.refusal, Refusal::new(27, before), "{text}");
    let wanted = Combination {
        state: state.to_vec(),
        row: row.to_vec(),
    };
    assert_eq!(found.scan, Some(wanted.clone()));
    assert_eq!(combination(&image, before as u32), Ok(wanted));
    let refusal = scan(&image, &mut state.to_vec(), row).expect_err("a refused scan");
    assert_eq!(refusal.number, number);
}

/// Number and place of an image that has no walk.
fn no_walk(image: &[u8]) -> (u8, usize) {
    let found = closed(image).expect_err("no walk");
    assert_eq!(found.scan, None);
    assert_eq!(combination(image, 0), Err(found.refusal));
    (found.refusal.number, found.refusal.place)
}

#[test]
fn accepted() {
    accepts(&image(""), 1);
    let latch = "var v 0..1; v: GX(~(v = _v) -> [_v = 0] & v = (1)); \
        v: GX(v = _v -> ~([_v = 0]));";
    accepts(&image(latch), 2);
    let launch = "input go 0..1; var run 0..1; run: GX(~(run = _run) -> \
        [_run = 0 & go = 1] & run = (1) | [_run = 1 & go = 0] & run = (0)); \
        run: GX(run = _run -> ~([_run = 0 & go = 1] | [_run = 1 & go = 0]));";
    accepts(&image(launch), 8);
    accepts(&image(&ADDS.replace("_v + i", "(_v + i) mod 4")), 16);
}

#[test]
fn refused() {
    refuses(ADDS, 7, &[0, 3], &[1], 17);
    let divides = "input i 0..2; input j -1..1; var v 0..9; v: GX(v = (i / j));";
    refuses(divides, 1, &[0, -1, 0], &[0, 0], 14);
    let always = "var v 0..1; v: GX(~(v = _v) -> [1 = 1] & v = (1)); \
        v: GX(v = _v -> ~([1 = 1]));";
    refuses(always, 1, &[1], &[], 16);
    // The first refused scan is the last of all.
    refuses("var v 0..8; v: GX(v = (0 / (8 - _v)));", 8, &[8], &[], 14);
    let last = "input a -1..1; input b 5..6 init 5; var c 0..1; var d -9..-8 init -8; \
        c: GX(c = (_c)); d: GX(d = (-9 + 0 / (1 - a + 6 - b + 1 - _a + 6 - _b + 1 - c + -8 - _d)));";
    refuses(last, 143, &[1, 6, 1, -8], &[1, 6], 14);
}

#[test]
fn products() {
    let held = |inputs: &str, range: &str| format!("{inputs} var v {range}; v: GX(v = (_v));");
    accepts(
        &image("input i 0..255; var v 0..0; v: GX(v = (0));"),
        65_536,
    );
    assert_eq!(no_walk(&image(&held("input i 0..255;", "0..1"))), (26, 0));
    accepts(&image(&held("", "0..65535")), 65_536);
    accepts(&image(&held("", "-32768..32767")), 65_536);
    assert_eq!(no_walk(&image(&held("", "0..65536"))), (26, 0));
    assert_eq!(no_walk(&image(&held("", WHOLE))), (26, 0));
    let two = format!("input i {WHOLE}; input j {WHOLE};");
    assert_eq!(no_walk(&image(&two)), (26, 0));
    let many: String = (0..64).map(|id| format!("input n{id} {WHOLE};")).collect();
    assert_eq!(no_walk(&image(&many)), (26, 0));
    // Sizes whose product has 2^64 as a factor.
    let wraps = "input i -2147483648..2147483647; var v 0..0; v: GX(v = (0));";
    assert_eq!(no_walk(&image(wraps)), (26, 0));
    // 26 comes even where the first scan would be refused.
    let refused = "var v 0..65536; v: GX(v = (1 / 0));";
    assert_eq!(no_walk(&image(refused)), (26, 0));
    refuses(&refused.replace("65536", "65535"), 0, &[0], &[], 14);
}

/// "after 9 and 11"
#[test]
fn unsound() {
    assert_eq!(no_walk(&[0; IMAGE_LIMIT + 1]), (9, 0));
    assert_eq!(no_walk(&[0, 0, 1, 0]), (11, 4));
    assert_eq!(no_walk(&[]), (11, 0));
    let large = image(&format!("input i {WHOLE};"));
    assert_eq!(no_walk(&large), (26, 0));
    assert_eq!(no_walk(&large[..5]), (11, 2));
}

/// "Every refusal leaves all lent memory as found".
#[test]
fn lent_lengths() {
    let adds = image(ADDS);
    let unsound = [0];
    for (image, index, names, inputs, number) in [
        (&adds[..], 7, 2, 1, 0),
        (&adds, 15, 2, 1, 0),
        (&adds, 16, 2, 1, 12),
        (&adds, u32::MAX, 2, 1, 12),
        (&adds, 7, 1, 1, 12),
        (&adds, 7, 3, 1, 12),
        (&adds, 7, 2, 0, 12),
        (&adds, 7, 2, 2, 12),
        (&unsound, 16, 0, 9, 11),
        (&[0, 0], 0, 0, 0, 0),
        (&[0, 0], 1, 0, 0, 12),
    ] {
        let (mut state, mut row) = (vec![77; names], vec![77; inputs]);
        let answer = write_combination(image, index, &mut state, &mut row);
        assert_eq!(answer.map_or_else(|refusal| refusal.number, |_| 0), number);
        if number == 0 {
            let wanted = combination(image, index).expect("in the walk");
            assert_eq!((state, row), (wanted.state, wanted.row));
        } else {
            assert_eq!((state, row), (vec![77; names], vec![77; inputs]));
        }
    }
}

/// The only refused scan is found, and its place is that of its state and row.
#[test]
fn one_refused_scan() {
    let mut met = [0; 18];
    for seed in 0..1500 {
        let mut rng = Rng::new(90_000_000 + seed);
        let one = one_refused(&mut rng);
        let text = String::from_utf8_lossy(&one.text);
        let image = image(&text);
        let found = closed(&image).expect_err("a refused scan");
        assert_eq!(found.scan, Some(one.scan.clone()), "{text}");
        let index = found.refusal.place as u32;
        assert_eq!(combination(&image, index), Ok(one.scan.clone()));
        let refusal = scan(&image, &mut one.scan.state.clone(), &one.scan.row);
        assert_eq!(refusal.map_err(|r| r.number), Err(one.number));
        met[usize::from(one.number)] += 1;
    }
    assert!(met[14..].iter().all(|&count| count > 100), "{met:?}");
}

/// The walk goes by the index: every scan before the refused one is accepted. "then no
/// list of in-range rows from the fresh start ever meets 14 to 17 or 22".
#[test]
fn every_scan() {
    landed_and_all(every_scan_in_force);
}

fn every_scan_in_force() {
    let (mut rows, mut lists) = (0, 0);
    for seed in 0..400 {
        let mut rng = Rng::new(91_000_000 + seed);
        let image = profile_image(&mut rng);
        let found = closed(&image);
        let before = match &found {
            Ok(()) => usize::MAX,
            Err(found) if found.refusal.number == 27 => found.refusal.place,
            Err(_) => continue,
        };
        let mut index = 0;
        while let Ok(Combination { mut state, row }) = combination(&image, index) {
            let accepted = scan(&image, &mut state, &row).is_ok();
            assert_eq!(accepted, (index as usize) < before);
            if !accepted {
                break;
            }
            (index, rows) = (index + 1, rows + 1);
        }
        if found.is_ok() {
            in_service(&mut rng, &image);
            lists += 1;
        }
    }
    assert!(rows > 5000 && lists > 80, "{rows} {lists}");
}

/// A list of rows from the fresh start, and scans of any states in range.
fn in_service(rng: &mut Rng, image: &[u8]) {
    let header = check_detail(image).expect("a sound image");
    let ranges = header.ranges();
    let mut state = vec![0; ranges.len()];
    start(image, &mut state).expect("a sound image");
    for _ in 0..9 {
        let row = row_in_range(rng, &ranges[..header.inputs]);
        assert!(scan(image, &mut state, &row).is_ok());
        let mut other = state_in_range(rng, ranges);
        assert!(scan(image, &mut other, &row).is_ok());
    }
}

/// Indices in turn name different combinations, rows inside states and the last name
/// fastest: the numbers read as one list rise.
#[test]
fn order() {
    let mut steps = 0;
    for seed in 0..60 {
        let mut rng = Rng::new(92_000_000 + seed);
        let text = one_refused(&mut rng).text;
        let image = write_image(&read_text(&text).expect("an accepted text"));
        let mut last: Option<Vec<i32>> = None;
        for index in 0.. {
            let Ok(found) = combination(&image, index) else {
                break;
            };
            let now = [found.state, found.row].concat();
            assert!(last.is_none_or(|last| last < now));
            last = Some(now);
            steps += 1;
        }
        let ranges = check_detail(&image).expect("sound");
        let inputs = &ranges.ranges()[..ranges.inputs];
        let highs = ranges.ranges().iter().chain(inputs).map(|range| range.high);
        assert_eq!(last, Some(highs.collect()));
    }
    assert!(steps > 2000, "{steps}");
}

/// What the generators promise; every answer is met.
#[test]
fn generators() {
    let mut met = [0; 28];
    for seed in 0..1500 {
        let mut rng = Rng::new(93_000_000 + seed);
        let mut image = profile_image(&mut rng);
        if seed % 4 == 0 {
            image = damaged_image(&mut rng, &image);
        }
        let number = closed(&image).map_or_else(|found| found.refusal.number, |()| 0);
        met[usize::from(number)] += 1;
    }
    for wanted in [0, 11, 26, 27] {
        assert!(met[wanted] > 50, "{wanted}: {met:?}");
    }
    assert_eq!(met[0] + met[11] + met[26] + met[27], 1500, "{met:?}");
    let mut large = 0;
    for seed in 0..40 {
        let mut rng = Rng::new(94_000_000 + seed);
        let exact = limit_product(&mut rng, true);
        assert!(combination(&exact, 65_535).is_ok());
        assert!(combination(&exact, 65_536).is_err());
        let near = limit_product(&mut rng, false);
        large += usize::from(combination(&near, 0).is_err());
    }
    assert!((10..35).contains(&large), "{large}");
}
