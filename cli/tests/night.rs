//! The night in which an hour comes twice, by one command: the launch at 2:30 fires once, and its licences are billed for two and a half hours.

mod common;

use common::{file, printed, word};

#[test]
fn fires_once_and_is_billed() {
    let table = file("berlin.table", printed(&["table", "Europe/Berlin", "--from", "2026", "--to", "2026"]).as_bytes());
    // from 1:00 of 25 October 2026, summer time, five hours in minutes
    let night = ["../examples/night.txt", "--zeros", "300", "--table", word(&table), "--start", "29881380"];
    let trace = printed(&[&["trace"], &night[..]].concat());
    let rows: Vec<Vec<i64>> = trace.lines().skip(1).map(|l| l.split(' ').map(|w| w.parse().unwrap()).collect()).collect();
    let half_past_two: Vec<&Vec<i64>> = rows.iter().filter(|r| r[2] == 150).collect();
    // day, minute, again, fire
    assert_eq!(half_past_two.iter().map(|r| r[1..5].to_vec()).collect::<Vec<_>>(), [[20751, 150, 0, 1], [20751, 150, 1, 0]]);
    assert_eq!(rows.iter().filter(|r| r[4] == 1).count(), 1);
    let bill = printed(&[&["charge"], &night[..], &["--of", "held", "--rate", "100", "--threshold", "30", "--rate-above", "250"]].concat());
    assert_eq!(bill, "held: 13750 0/60 cents over 300 rows, 0 refused\n");
}
