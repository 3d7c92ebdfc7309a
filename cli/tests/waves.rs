//! Waveforms through the converters of GTKWave: what comes back has the trace's values at the same times.

mod common;

use common::{file, out, status, told, tool, word};
use std::collections::BTreeMap;
use std::fs;
use std::process::Command;

/// Name → time → value as a number, of a value change dump.
fn values(dump: &str) -> BTreeMap<String, BTreeMap<u64, i64>> {
    let mut names: BTreeMap<String, (String, u32)> = BTreeMap::new();
    let mut found: BTreeMap<String, BTreeMap<u64, i64>> = BTreeMap::new();
    let (mut time, mut begun) = (0, false);
    for line in dump.lines() {
        let words: Vec<&str> = line.split_whitespace().collect();
        match words[..] {
            ["$enddefinitions", ..] => begun = true,
            ["$var", _, width, id, name, ..] => {
                names.insert(id.to_owned(), (name.to_owned(), width.parse().unwrap()));
            }
            _ if !begun => (),
            [word, ..] if word.starts_with('#') => time = word[1..].parse().unwrap(),
            [bits, id] if bits.starts_with('b') => {
                let (name, width) = &names[id];
                let n = i64::from_str_radix(&bits[1..], 2).unwrap();
                // the name tells here which wires go below 0
                let n = if name.starts_with("low") && n >> (width - 1) == 1 { n - (1 << width) } else { n };
                found.entry(name.clone()).or_default().insert(time, n);
            }
            [bit] if bit.starts_with(['0', '1']) && bit.len() > 1 => {
                found.entry(names[&bit[1..]].0.clone()).or_default().insert(time, i64::from(bit.starts_with('1')));
            }
            _ => (),
        }
    }
    found
}

/// Through `vcd2fst` and back.
fn converted(name: &str, dump: &str) -> String {
    let wave = file(&format!("{name}.vcd"), dump.as_bytes());
    let fst = wave.with_extension("fst");
    let there = Command::new("vcd2fst").arg(&wave).arg(&fst).output().expect("Debian's package gtkwave is wanted");
    assert!(there.status.success(), "{}", told(&there));
    let back = Command::new("fst2vcd").arg(&fst).output().unwrap();
    assert!(back.status.success(), "{}", told(&back));
    out(&back)
}

#[test]
fn a_waveform_goes_through_gtkwave_and_back() {
    let rules = file("wave.txt", b"input i 0..1;\nvar low -5..3;\nvar up 0..300;\nlow: GX(low = (_low - i));\nup: GX(up = (_up + 100));\n#\n1\n1\n0\n7\n1\n0\n");
    let wave = rules.with_extension("vcd");
    let o = tool(&["trace", word(&rules), "--vcd", word(&wave)]);
    assert_eq!(status(&o), 1, "{}", told(&o));
    let written = fs::read_to_string(&wave).unwrap();
    let own = values(&written);
    assert_eq!(own["low"], BTreeMap::from([(0, 0), (1, -1), (2, -2)]));
    assert_eq!(own["up"], BTreeMap::from([(0, 0), (1, 100), (2, 200), (3, 300)]));
    assert_eq!(own["_result"], BTreeMap::from([(0, 0), (4, 13), (5, 17)]));
    assert_eq!(values(&converted("wave", &written)), own);
    assert_eq!(out(&tool(&["trace", word(&rules), "--vcd", "-"])), written);
}

/// With a timer, time goes by the milliseconds of the accepted rows; a refused row stands where its own say, and time never goes back.
#[test]
fn time_goes_by_milliseconds() {
    let rules = file("timer.txt", b"input i 0..1;\nvar w 0..1;\ntimer t of w limit 50;\nw: GX(w = (i));\n#\n1 10\n1 20\n2 25\n1 30\n1 2147483647\n1\n2 5\n0 3\n1 -1\n1 0\n");
    let o = tool(&["trace", word(&rules), "--vcd", "-"]);
    assert_eq!(status(&o), 1, "{}", told(&o));
    let written = out(&o);
    assert!(written.starts_with("$timescale 1 ms $end\n$comment a unit of time is a millisecond $end\n"), "{written}");
    let own = values(&written);
    let end = 60 + 2_147_483_647;
    assert_eq!(own["w"], BTreeMap::from([(0, 0), (10, 1), (end + 5, 1)]));
    assert_eq!(own["t"], BTreeMap::from([(0, 0), (60, 1), (end + 5, 0)]));
    assert_eq!(own["_result"], BTreeMap::from([(0, 0), (55, 13), (60, 0), (end, 12), (end + 5, 0)]));
    assert!(!own.contains_key("elapsed"));
    assert_eq!(values(&converted("timer", &written)), own);
}

/// 64 names, with ranges of every width from 1 to 32 bits, above and below 0.
#[test]
fn wires_of_every_width_go_through_gtkwave() {
    let high = |n: u32| (1u64 << (n % 31 + 1)) - 1;
    let range = |n: u32| if n < 31 { format!("w{n} 0..{}", high(n)) } else { format!("low{n} -{}..{}", high(n) + 1, high(n)) };
    let names: Vec<u32> = (0..62).collect();
    let declared: String = names.iter().map(|n| format!("var {};\n", range(*n))).collect();
    let name = |n: u32| if n < 31 { format!("w{n}") } else { format!("low{n}") };
    let last = |n: u32| if n < 31 { high(n) as i64 } else { -(high(n) as i64) - 1 };
    let value = |n: u32| if n < 31 { format!("{}", last(n)) } else { format!("-{} - 1", high(n)) };
    let rules: String = names.iter().map(|n| format!("{0}: GX({0} = ({1}));\n", name(*n), value(*n))).collect();
    let path = file("widths.txt", format!("{declared}{rules}#\n\n").as_bytes());
    let o = tool(&["trace", word(&path), "--vcd", "-"]);
    assert_eq!(status(&o), 0, "{}", told(&o));
    let found = values(&converted("widths", &out(&o)));
    for n in names {
        assert_eq!(found[&name(n)], BTreeMap::from([(0, 0), (1, last(n))]), "{}", range(n));
    }
}
