//! Request A.1: the local hour of each farm.

mod common;

use common::landed_and_all;
use rolvenko_model::features::with;
use rolvenko_model::generate::{
    broken_table, clock_text, farm_table, mutated_clock_text, utc_minute, Rng,
};
use rolvenko_model::{clock, read_text, Features, Refusal};
use std::collections::HashSet;

const TEXT: &[u8] = b"input day 0..1; input minute 0..1; input again 0..1;";
const LAST: i64 = 2_147_483_647;

/// Day, minute and again, whatever stood in the row.
fn filled(table: &[i64], utc: i64) -> [i32; 3] {
    let mut row = [7, -7, 77];
    clock(TEXT, table, utc, &mut row).expect("a table and a minute within their limits");
    row
}

/// Again at each of these minutes.
fn again(table: &[i64], minutes: impl Iterator<Item = i64>) -> Vec<i32> {
    minutes.map(|utc| filled(table, utc)[2]).collect()
}

fn number(table: &[i64], utc: i64) -> u8 {
    let mut row = [7, -7, 77];
    let answer = clock(TEXT, table, utc, &mut row);
    let Err(refusal) = answer else { return 0 };
    assert_eq!(row, [7, -7, 77]);
    assert_eq!(refusal.place, 0);
    refusal.number
}

#[test]
fn autumn() {
    let table = [0, 120, 1000, 60];
    assert_eq!(filled(&table, 940), [0, 1060, 0]);
    assert_eq!(filled(&table, 999), [0, 1119, 0]);
    assert_eq!(filled(&table, 1000), [0, 1060, 1]);
    assert_eq!(filled(&table, 1059), [0, 1119, 1]);
    assert_eq!(filled(&table, 1060), [0, 1120, 0]);
    assert_eq!(again(&table, 0..1000), [0; 1000]);
    assert_eq!(again(&table, 1000..1060), [1; 60]);
    assert_eq!(again(&table, 1060..4000), [0; 2940]);
}

#[test]
fn spring() {
    let table = [0, 60, 1000, 120];
    assert_eq!(filled(&table, 999), [0, 1059, 0]);
    assert_eq!(filled(&table, 1000), [0, 1120, 0]);
    assert_eq!(again(&table, 0..4000), [0; 4000]);
}

#[test]
fn three_times() {
    let table = [0, 120, 1000, 60, 1060, 0];
    for utc in [940, 1000, 1060] {
        assert_eq!(filled(&table, utc)[..2], [0, 1060]);
    }
    assert_eq!(again(&table, 940..1000), [0; 60]);
    assert_eq!(again(&table, 1000..1120), [1; 120]);
    assert_eq!(again(&table, 1120..4000), [0; 2880]);
}

/// One minute under a great offset comes again much later, its neighbours do not.
#[test]
fn one_minute() {
    let table = [100, 0, 101, 840, 102, 0];
    assert_eq!(filled(&table, 101), [0, 941, 0]);
    assert_eq!(again(&table, 940..943), [0, 1, 0]);
}

/// A repeated hour that a later entry ends early.
#[test]
fn cut_short() {
    let table = [0, 120, 1000, 60, 1010, 120];
    assert_eq!(again(&table, 1000..1010), [1; 10]);
    assert_eq!(again(&table, 1010..2000), [0; 990]);
}

#[test]
fn below_zero() {
    assert_eq!(filled(&[0, -720], 0), [-1, 720, 0]);
    assert_eq!(filled(&[0, -1], 0), [-1, 1439, 0]);
    assert_eq!(filled(&[5, -1], 1), [0, 0, 0]);
    assert_eq!(filled(&[0, 0], 0), [0, 0, 0]);
    // Minute 1 has the local time of minute -1559: the first offset holds there too.
    let table = [0, 840, 1, -720];
    assert_eq!(filled(&table, 1), [-1, 721, 1]);
    assert_eq!(again(&table, 0..1), [0]);
    assert_eq!(again(&table, 1..1561), [1; 1560]);
    assert_eq!(again(&table, 1561..3000), [0; 1439]);
}

/// The latest minutes, and the widest step back.
#[test]
fn latest() {
    let last = filled(&[LAST, 840], LAST);
    assert_eq!(last, [1_491_308, 967, 0]);
    let from = LAST - 1560;
    let table = [0, 840, from, -720];
    assert_eq!(again(&table, from - 2..from), [0; 2]);
    assert_eq!(again(&table, from..LAST), [1; 1560]);
    assert_eq!(again(&table, LAST..LAST + 1), [0]);
}

/// `count` entries, one a minute.
fn table_of(count: i64) -> Vec<i64> {
    (0..count).flat_map(|minute| [minute, 0]).collect()
}

#[test]
fn limits_of_the_table() {
    for (wanted, table) in [
        (19, table_of(0)),
        (0, table_of(1)),
        (0, table_of(32)),
        (19, table_of(33)),
        (19, vec![0]),
        (19, vec![0, 0, 1]),
        (0, vec![0, -720, 1, 840]),
        (19, vec![0, -721, 1, 0]),
        (19, vec![0, 0, 1, -721]),
        (19, vec![0, 841, 1, 0]),
        (19, vec![0, 0, 1, 841]),
        (0, vec![0, 0, LAST, 0]),
        (19, vec![-1, 0, 1, 0]),
        (19, vec![0, 0, LAST + 1, 0]),
        (0, vec![4, 0, 5, 0]),
        (19, vec![5, 0, 5, 0]),
        (19, vec![6, 0, 5, 0]),
        (19, vec![i64::MIN, 0, i64::MAX, 0]),
        (19, vec![0, i64::MIN]),
        (19, vec![0, i64::MAX]),
    ] {
        assert_eq!(number(&table, 5), wanted, "{table:?}");
    }
}

#[test]
fn limits_of_the_minute() {
    for (wanted, utc) in [
        (0, 0),
        (20, -1),
        (0, LAST),
        (20, LAST + 1),
        (20, i64::MIN),
        (20, i64::MAX),
    ] {
        assert_eq!(number(&[0, 0], utc), wanted, "{utc}");
    }
}

/// "those of the text given, then 19 .., 20 .., 12"; 20 and 12 also without the names.
#[test]
fn order_of_refusals() {
    let answer = |text: &[u8], table: &[i64], utc, length| {
        clock(text, table, utc, &mut vec![7; length]).map_err(|r| (r.number, r.place))
    };
    let long = [b' '; 32_769];
    assert_eq!(answer(&long, &[], -1, 1), Err((9, 0)));
    assert_eq!(answer(b"input $", &[], -1, 1), Err((1, 6)));
    assert_eq!(answer(b"var v 0..1;", &[], -1, 1), Err((6, 11)));
    assert_eq!(answer(b"", &[], -1, 1), Err((19, 0)));
    assert_eq!(answer(b"", &[0, 0], -1, 1), Err((20, 0)));
    assert_eq!(answer(b"", &[0, 0], 0, 1), Err((12, 0)));
    assert_eq!(answer(b"", &[0, 0], 0, 0), Ok(()));
    assert_eq!(answer(TEXT, &[0, 0], 0, 2), Err((12, 0)));
    assert_eq!(answer(TEXT, &[0, 0], 0, 4), Err((12, 0)));
}

/// Only inputs of just these names are filled, whatever their ranges. `Day` is another name
/// without A.2.
#[test]
fn names() {
    let text = b"input a 0..1; input minute 5..6 init 5; input Day 0..1; input day 0..0; \
        input days 0..1; var again 0..1; again: GX(again = (1));";
    with(Features::NONE, || {
        let mut row = [9, 9, 9, 9, 9];
        assert_eq!(clock(text, &[0, 60], 3000, &mut row), Ok(()));
        assert_eq!(row, [9, 180, 9, 2, 9]);
    });
    let text = b"var day 0..1; var minute 0..1; day: GX(day = (0)); minute: GX(minute = (0));";
    assert_eq!(clock(text, &[0, 60], 3000, &mut []), Ok(()));
    assert_eq!(
        clock(text, &[0, 60], 3000, &mut [1, 1]),
        Err(Refusal::new(12, 0))
    );
}

/// Every minute in turn, from long before 0: a local time seen before comes again.
#[test]
fn every_minute() {
    let mut repeated = 0;
    for seed in 0..30 {
        let mut rng = Rng::new(40_000_000 + seed);
        let mut table = farm_table(&mut rng);
        // The same steps, from 0.
        let first = table[0];
        table.iter_mut().step_by(2).for_each(|m| *m -= first);
        let mut seen = HashSet::new();
        let mut rest = &table[..];
        let mut offset = rest[1];
        for utc in -2000..4000 {
            while rest.len() > 1 && rest[0] <= utc {
                offset = rest[1];
                rest = &rest[2..];
            }
            let fresh = seen.insert(utc + offset);
            if utc < 0 {
                continue;
            }
            let [day, minute, again] = filled(&table, utc);
            assert_eq!(1440 * i64::from(day) + i64::from(minute), utc + offset);
            assert!((0..1440).contains(&minute));
            assert_eq!(again == 1, !fresh, "{table:?} {utc}");
            repeated += again;
        }
    }
    assert!(repeated > 3000, "{repeated}");
}

/// What the generators promise; every answer is met.
#[test]
fn generators() {
    landed_and_all(generators_in_force);
}

fn generators_in_force() {
    let mut met = [0; 31];
    for seed in 0..4000 {
        let mut rng = Rng::new(50_000_000 + seed);
        assert_eq!(number(&farm_table(&mut rng), 0), 0);
        assert_eq!(number(&broken_table(&mut rng), 0), 19);
        let accepted = clock_text(&mut rng);
        let inputs = read_text(&accepted).expect("accepted text").row_length();
        let text = match seed % 4 {
            0 => mutated_clock_text(&mut rng),
            _ => accepted,
        };
        let table = match seed % 5 {
            0 => broken_table(&mut rng),
            _ => farm_table(&mut rng),
        };
        let utc = utc_minute(&mut rng, &table);
        let mut row = vec![0; inputs + usize::from(rng.chance(10))];
        let answer = clock(&text, &table, utc, &mut row).err();
        met[answer.map_or(0, |refusal| refusal.number) as usize] += 1;
    }
    for wanted in [0, 1, 2, 3, 4, 5, 6, 7, 12, 19, 20] {
        assert!(met[wanted] > 0, "{wanted}: {met:?}");
    }
    assert_eq!(met[9..12].iter().chain(&met[13..19]).sum::<i32>(), 0);
}
