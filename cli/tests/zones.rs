//! Farm tables against coreutils' `date`: every change of offset that `date` knows, and no other.

mod common;

use common::{file, out, printed, status, told, tool};
use std::process::Command;

const HOUR: i64 = 3600;
const DAY: i64 = 24 * HOUR;

/// The offsets in minutes that `date` shows for UTC seconds.
fn shown(zone: &str, seconds: &[i64]) -> Vec<i64> {
    let lines: String = seconds.iter().map(|s| format!("@{s}\n")).collect();
    let asked = file(&format!("{}.seconds", zone.replace('/', "-")), lines.as_bytes());
    let o = Command::new("date").env("TZ", zone).arg("-f").arg(asked).arg("+%z").output().unwrap();
    let offset = |line: &str| {
        let (sign, digits) = line.split_at(1);
        let n: i64 = digits.parse().unwrap();
        (n / 100 * 60 + n % 100) * if sign == "-" { -1 } else { 1 }
    };
    out(&o).lines().map(offset).collect()
}

/// The neighbours among the seconds between which `date` changes the offset: the later second, and the offset from then on.
fn changes(zone: &str, seconds: &[i64]) -> Vec<(i64, i64)> {
    let offsets = shown(zone, seconds);
    assert_eq!(offsets.len(), seconds.len(), "{zone}");
    (1..seconds.len()).filter(|i| offsets[*i] != offsets[i - 1]).map(|i| (seconds[i], offsets[i])).collect()
}

fn table(zone: &str, from: i64, to: i64) -> Vec<(i64, i64)> {
    let numbers = |line: &str| {
        let mut words = line.split_whitespace().map(|w| w.parse().unwrap());
        (words.next().unwrap(), words.next().unwrap())
    };
    printed(&["table", zone, "--from", &from.to_string(), "--to", &to.to_string()]).lines().map(|l| numbers(l.split('#').next().unwrap())).collect()
}

#[test]
fn every_change_of_offset_is_that_of_date() {
    // past the end of the 32-bit times too, where the rule at the end of the file holds
    let (first, last) = (1970, 2059);
    let end = 32_872 * DAY;
    for zone in ["Europe/Berlin", "Asia/Tokyo", "America/New_York", "Asia/Kathmandu", "Pacific/Apia"] {
        let coarse: Vec<i64> = (0..end / (6 * HOUR)).map(|i| i * 6 * HOUR).collect();
        let fine: Vec<i64> = changes(zone, &coarse).iter().flat_map(|(s, _)| (0..=360).map(move |m| s - 6 * HOUR + 60 * m)).collect();
        let wanted: Vec<(i64, i64)> = changes(zone, &fine).iter().map(|(s, offset)| (s / 60, *offset)).collect();
        let mut found: Vec<(i64, i64)> = Vec::new();
        for from in (first..=last).step_by(5) {
            let entries = table(zone, from, from + 4);
            // the first entry is the offset as the span begins
            assert_eq!(shown(zone, &[entries[0].0 * 60]), [entries[0].1], "{zone} {from}");
            found.extend(&entries[1..]);
        }
        assert_eq!(found, wanted, "{zone}");
    }
}

#[test]
fn too_many_changes_are_told() {
    let o = tool(&["table", "Europe/Berlin", "--from", "2000", "--to", "2030"]);
    assert_eq!(status(&o), 2);
    assert!(told(&o).contains("63 entries, and a farm table has at most 32"));
}

#[test]
fn offsets_that_a_table_cannot_have_are_told() {
    // Liberia kept 44 minutes and 30 seconds up to 1972.
    let o = tool(&["table", "Africa/Monrovia", "--from", "1970", "--to", "1973"]);
    assert_eq!(status(&o), 2);
    assert!(told(&o).contains("-2670 seconds"), "{}", told(&o));
}
