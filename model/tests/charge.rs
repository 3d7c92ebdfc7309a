//! Request A.12: the licence charge.

mod common;

use common::{image, landed_and_all};
use rolvenko_model::generate::{
    bill, bill_of, counters, damaged_image, found_trace, licence_image, limit_sum, mutate_bill,
    Bill, Rng, REFUSED_SUM,
};
use rolvenko_model::{charge, check_detail, Charge, Refusal, IMAGE_LIMIT};

/// Ids: 0 an input, 1 the licences, 2 a variable that may be negative.
const TEXT: &str = "input i 0..9; var n 0..9 init 3; var z -1..1; \
    n: GX(n = (i)); z: GX(z = (0));";
const MAX: i32 = i32::MAX;
const MOST_CENTS: u64 = 9_007_199_254_740_991;

/// Two rows within all limits.
fn good() -> Bill {
    Bill {
        id: 1,
        trace: vec![0, 3, 0, 5, 5, 0, 7, 7, 0],
        minutes: vec![60, 90],
        threshold: 6,
        rate: 100,
        rate_above: 250,
    }
}

/// Cents and sixtieths, or number and place.
fn answer(image: &[u8], bill: &Bill) -> Result<(u64, u8), (u8, usize)> {
    charge(
        image,
        bill.id,
        &bill.trace,
        &bill.minutes,
        bill.threshold,
        bill.rate,
        bill.rate_above,
    )
    .map(|Charge { cents, sixtieths }| (cents, sixtieths))
    .map_err(|Refusal { number, place }| (number, place))
}

/// The answer to `good` after a change.
fn changed(change: impl Fn(&mut Bill)) -> Result<(u64, u8), (u8, usize)> {
    let mut bill = good();
    change(&mut bill);
    answer(&image(TEXT), &bill)
}

/// Cents and sixtieths of one variable: the rows' licences and minutes.
fn owed(rows: &[(i32, i32)], threshold: i32, rate: i32, rate_above: i32) -> (u64, u8) {
    let image = image("var n 0..1; n: GX(n = (0));");
    let held = rows.iter().map(|row| row.0);
    let bill = Bill {
        id: 0,
        trace: [77].into_iter().chain(held).collect(),
        minutes: rows.iter().map(|row| row.1).collect(),
        threshold,
        rate,
        rate_above,
    };
    answer(&image, &bill).expect("a bill within its limits")
}

/// An hour of five licences, then an hour and a half of seven, one of them above.
#[test]
fn two_rows() {
    assert_eq!(changed(|_| ()), Ok((500 + 600 + 300 + 250 + 125, 0)));
    assert_eq!(changed(|bill| bill.minutes = vec![0, 90]), Ok((1275, 0)));
    assert_eq!(changed(|bill| bill.minutes = vec![1, 0]), Ok((8, 20)));
    // The start is not counted, nor is another name.
    assert_eq!(changed(|bill| bill.trace[1] = MAX), changed(|_| ()));
    for at in [0, 2, 3, 5, 6, 8] {
        assert_eq!(changed(|bill| bill.trace[at] = i32::MIN), changed(|_| ()));
    }
}

#[test]
fn thresholds() {
    for (threshold, cents) in [
        (0, 5 * 250),
        (1, 100 + 4 * 250),
        (4, 4 * 100 + 250),
        (5, 500),
        (6, 500),
        (MAX, 500),
    ] {
        assert_eq!(owed(&[(5, 60)], threshold, 100, 250), (cents, 0));
    }
    assert_eq!(owed(&[(MAX, 60)], MAX - 1, 0, 9), (9, 0));
    assert_eq!(owed(&[(MAX, 60)], MAX, 0, 9), (0, 0));
    assert_eq!(owed(&[(MAX, 60)], 1, 9, 0), (9, 0));
}

/// The remainder is that of the whole sum, not of each row.
#[test]
fn sixtieths() {
    for (minutes, owes) in [(0, (0, 0)), (1, (0, 1)), (59, (0, 59)), (60, (1, 0))] {
        assert_eq!(owed(&[(1, minutes)], 1, 1, 0), owes);
        assert_eq!(owed(&[(1, minutes)], 0, 0, 1), owes);
    }
    assert_eq!(owed(&[], 0, 1, 1), (0, 0));
    assert_eq!(owed(&[(1, 30), (1, 30)], 1, 1, 1), (1, 0));
    assert_eq!(owed(&[(1, 59), (1, 59)], 1, 1, 1), (1, 58));
    assert_eq!(owed(&[(1, 1440)], 1, 1, 1), (24, 0));
}

/// A trace that the rules give, and values that they never give.
#[test]
fn traces() {
    let image = image(TEXT);
    let mut rng = Rng::new(1);
    let trace = found_trace(&mut rng, &image, 9);
    let bill = Bill {
        minutes: vec![60; trace.len() / 3 - 1],
        trace,
        ..good()
    };
    let held = |value: i32| (100 * value.min(6) + 250 * (value - 6).max(0)) as u64;
    let cents = bill.trace[3..].chunks(3).map(|state| held(state[1])).sum();
    assert_eq!(answer(&image, &bill), Ok((cents, 0)));
    assert!(cents > 0);
    // Values above the range are not refused.
    assert_eq!(changed(|bill| bill.trace[7] = 10), Ok((2900, 0)));
    assert_eq!(changed(|bill| bill.trace.truncate(3)), Err((28, 0)));
    let start_alone = |bill: &mut Bill| {
        bill.trace.truncate(3);
        bill.minutes.clear();
    };
    assert_eq!(changed(start_alone), Ok((0, 0)));
}

/// "12 a trace without its start or with a cut state"
#[test]
fn lengths() {
    for length in 0..=9 {
        let wanted = match length {
            3 => Ok((0, 0)),
            6 => Ok((500, 0)),
            9 => changed(|_| ()),
            _ => Err((12, 0)),
        };
        let cut = |bill: &mut Bill| {
            bill.trace.truncate(length);
            bill.minutes.truncate((length / 3).saturating_sub(1));
        };
        assert_eq!(changed(cut), wanted, "{length}");
    }
    assert_eq!(changed(|bill| bill.trace.push(0)), Err((12, 0)));
}

/// "without names, nothing lent is the start alone": the trace must be empty, and there is
/// no variable.
#[test]
fn no_names() {
    let none = [0, 0];
    for id in [0, 1, usize::MAX] {
        let mut bill = Bill {
            id,
            trace: vec![],
            minutes: vec![],
            ..good()
        };
        assert_eq!(answer(&none, &bill), Err((28, 0)));
        bill.minutes.push(0);
        assert_eq!(answer(&none, &bill), Err((28, 0)));
        bill.trace.push(0);
        assert_eq!(answer(&none, &bill), Err((12, 0)));
    }
}

/// Each thing that is 28, and its neighbour that is not.
#[test]
fn out_of_limit() {
    let refused = Err((28, 0));
    for id in [0, 2, 3, 4, 64, 1 << 32 | 1, usize::MAX] {
        assert_eq!(changed(|bill| bill.id = id), refused, "{id}");
    }
    for at in [1, 4, 7] {
        for value in [-1, i32::MIN] {
            assert_eq!(changed(|bill| bill.trace[at] = value), refused);
        }
        assert!(changed(|bill| bill.trace[at] = 0).is_ok());
    }
    for threshold in [-1, i32::MIN] {
        assert_eq!(changed(|bill| bill.threshold = threshold), refused);
    }
    for rate in [-1, 1_000_001, i32::MIN, MAX] {
        assert_eq!(changed(|bill| bill.rate = rate), refused);
        assert_eq!(changed(|bill| bill.rate_above = rate), refused);
    }
    for rate in [0, 1_000_000] {
        assert!(changed(|bill| bill.rate = rate).is_ok());
        assert!(changed(|bill| bill.rate_above = rate).is_ok());
    }
    for (minutes, accepted) in [
        (vec![0, 1440], true),
        (vec![-1, 0], false),
        (vec![0, -1], false),
        (vec![1441, 0], false),
        (vec![0, 1441], false),
        (vec![0, MAX], false),
        (vec![i32::MIN, 0], false),
        (vec![], false),
        (vec![0], false),
        (vec![0, 0, 0], false),
    ] {
        let answer = changed(|bill| bill.minutes = minutes.clone());
        assert_eq!(answer.is_ok(), accepted, "{minutes:?}");
        assert!(accepted || answer == refused);
    }
}

/// A low below 0 is 28 even if no value is.
#[test]
fn negative_low() {
    for (low, accepted) in [(0, true), (-1, false)] {
        let image = image(&format!("var n {low}..1; n: GX(n = (0));"));
        let bill = Bill {
            id: 0,
            trace: vec![0, 1],
            minutes: vec![60],
            ..good()
        };
        let wanted = if accepted { Ok((100, 0)) } else { Err((28, 0)) };
        assert_eq!(answer(&image, &bill), wanted);
    }
}

/// "29 cents over 9,007,199,254,740,991": the last that is accepted and the first that is
/// not, one sixtieth apart.
#[test]
fn greatest_charge() {
    let image = image("var n 0..1; n: GX(n = (0));");
    let bill = |last: i32| Bill {
        id: 0,
        trace: vec![0, 376_299_967, 1_001_363, last],
        minutes: vec![1440, 1, 1],
        threshold: 1_000_000,
        rate: 1,
        rate_above: 1_000_000,
    };
    assert_eq!(answer(&image, &bill(459_518)), Ok((MOST_CENTS, 58)));
    assert_eq!(answer(&image, &bill(459_519)), Ok((MOST_CENTS, 59)));
    assert_eq!(answer(&image, &bill(459_520)), Err((29, 0)));
    // Sums of one row, and of very many.
    let rows = |count: usize, rate: i32| Bill {
        id: 0,
        trace: vec![MAX; count + 1],
        minutes: vec![1440; count],
        threshold: 0,
        rate: 0,
        rate_above: rate,
    };
    assert_eq!(answer(&image, &rows(1, 1_000_000)), Err((29, 0)));
    assert_eq!(answer(&image, &rows(9, 1_000_000)), Err((29, 0)));
    assert_eq!(answer(&image, &rows(200_000, 1)), Err((29, 0)));
    let most = 100_000 * 24 * MAX as u64;
    assert_eq!(answer(&image, &rows(100_000, 1)), Ok((most, 0)));
}

/// "9, 11, then 12 .., then 28 .., then 29": with all that comes later wrong too.
#[test]
fn order_of_refusals() {
    let sound = image(TEXT);
    let mut bill = Bill {
        id: 0,
        trace: vec![MAX; 10],
        minutes: vec![1440; 4],
        threshold: 0,
        rate: 0,
        rate_above: 1_000_000,
    };
    assert_eq!(answer(&[0; IMAGE_LIMIT + 1], &bill), Err((9, 0)));
    let cut = &sound[..sound.len() - 1];
    assert_eq!(answer(cut, &bill), Err((11, sound.len() - 2)));
    assert_eq!(answer(&[], &bill), Err((11, 0)));
    assert_eq!(answer(&sound, &bill), Err((12, 0)));
    bill.trace.pop();
    assert_eq!(answer(&sound, &bill), Err((28, 0)));
    bill.id = 1;
    assert_eq!(answer(&sound, &bill), Err((28, 0)));
    bill.minutes.truncate(2);
    assert_eq!(answer(&sound, &bill), Err((29, 0)));
    // A fault in the last row comes before the sum of the first.
    bill.trace[7] = -1;
    assert_eq!(answer(&sound, &bill), Err((28, 0)));
    bill.trace[7] = 1;
    bill.minutes[1] = 1441;
    assert_eq!(answer(&sound, &bill), Err((28, 0)));
    bill.minutes = vec![0, 1];
    assert_eq!(answer(&sound, &bill), Ok((16_666, 40)));
}

/// Each licence of each minute on its own.
#[test]
fn licence_by_licence() {
    landed_and_all(licence_by_licence_in_force);
}

fn licence_by_licence_in_force() {
    let mut rows = 0;
    for seed in 0..300 {
        let mut rng = Rng::new(60_000_000 + seed);
        let trace: Vec<i32> = (0..2 + rng.below(4))
            .map(|_| rng.below(40) as i32)
            .collect();
        let image = image("var n 0..1; n: GX(n = (0));");
        let mut bill = bill(&mut rng, &check_detail(&image).expect("sound"), trace);
        bill.threshold = rng.below(40) as i32;
        let mut sum = 0;
        for (&held, &minutes) in bill.trace[1..].iter().zip(&bill.minutes) {
            rows += 1;
            for licence in 1..=held {
                let above = licence > bill.threshold;
                for _ in 0..minutes {
                    sum += if above { bill.rate_above } else { bill.rate } as u64;
                }
            }
        }
        assert_eq!(answer(&image, &bill), Ok((sum / 60, (sum % 60) as u8)));
    }
    assert!(rows > 600, "{rows}");
}

/// A bill made for a sum has that sum.
#[test]
fn exact_sums() {
    landed_and_all(exact_sums_in_force);
}

fn exact_sums_in_force() {
    let mut met = [0; 2];
    for seed in 0..3000 {
        let mut rng = Rng::new(70_000_000 + seed);
        let image = licence_image(&mut rng);
        let header = check_detail(&image).expect("sound");
        let Some(&id) = counters(&header).last() else {
            continue;
        };
        let sum = limit_sum(&mut rng);
        let bill = bill_of(&mut rng, &header, id, sum);
        let wanted = match sum < REFUSED_SUM {
            true => Ok(((sum / 60) as u64, (sum % 60) as u8)),
            false => Err((29, 0)),
        };
        assert_eq!(answer(&image, &bill), wanted, "{sum}");
        met[usize::from(wanted.is_err())] += 1;
    }
    assert!(met.iter().all(|&count| count > 500), "{met:?}");
}

/// What the generators promise; every answer is met.
#[test]
fn generators() {
    landed_and_all(generators_in_force);
}

fn generators_in_force() {
    let mut met = [0; 30];
    for seed in 0..6000 {
        let mut rng = Rng::new(80_000_000 + seed);
        let image = licence_image(&mut rng);
        let header = check_detail(&image).expect("sound");
        let rows = rng.below(9);
        let trace = found_trace(&mut rng, &image, rows);
        assert_eq!(trace.len() % header.state_length().max(1), 0);
        let mut bill = bill(&mut rng, &header, trace);
        let found = answer(&image, &bill);
        assert!(counters(&header).is_empty() || matches!(found, Ok(_) | Err((29, 0))));
        for _ in 0..rng.below(3) {
            mutate_bill(&mut rng, &header, &mut bill);
        }
        let image = match seed % 4 {
            0 => damaged_image(&mut rng, &image),
            _ => image,
        };
        let number = answer(&image, &bill).map_or_else(|refusal| refusal.0, |_| 0);
        met[number as usize] += 1;
    }
    for wanted in [0, 11, 12, 28, 29] {
        assert!(met[wanted] > 5, "{wanted}: {met:?}");
    }
    assert_eq!(met.iter().sum::<i32>(), 6000);
    assert_eq!(met[1..11].iter().chain(&met[13..28]).sum::<i32>(), 0);
}
