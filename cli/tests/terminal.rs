//! What only a terminal shows, through util-linux's `script`: how far long work is.

mod common;

use common::{file, folder, shell, status, word};
use std::fs;
use std::path::Path;

/// Runs a line on a terminal; answers what that saw.
fn seen(at: &Path, line: &str) -> String {
    let o = shell(at, &format!("script -qec '{line}' seen >/dev/null"));
    assert_eq!(status(&o), 0);
    String::from_utf8_lossy(&fs::read(at.join("seen")).unwrap()).into_owned()
}

#[test]
fn long_work_says_where_it_stands() {
    let at = folder("terminal");
    let rules = file("long_work.txt", b"input i 0..9; var v 0..9; v: GX(v = (i));\n");
    // ended by the clock, since machines differ
    let trace = format!("timeout 2 rolvenko trace {} --zeros 1000000000 >/dev/null; true", word(&rules));
    let screen = seen(&at, &trace);
    assert!(screen.contains(" of 1000000000, ") && screen.contains(" s left"), "{screen}");
    let bill = format!("yes 7 | timeout 2 rolvenko charge {} - --of v --rate 1; true", word(&rules));
    assert!(seen(&at, &bill).contains("row "));
    let sum = vec!["i - i"; 3500].join(" + ");
    let wide = file("wide_profile.txt", format!("input i 0..255; var v 0..0; v: GX(v = ({sum}));\n").as_bytes());
    let closed = format!("timeout 2 rolvenko closed {}; true", word(&wide));
    let screen = seen(&at, &closed);
    assert!(screen.contains(" of 65536 scans, ") && screen.contains(" s left"), "{screen}");
}

#[test]
fn a_refusal_takes_the_line_of_progress_away() {
    let at = folder("terminal-refusal");
    let rules = file("refusals.txt", b"input i 0..9; var v 0..9; v: GX(v = (i));\n");
    let rows = "(yes 7 | head -n 600; sleep 2; yes 7 | head -n 600; echo 77)";
    let screen = seen(&at, &format!("{rows} | rolvenko trace {} - >/dev/null; true", word(&rules)));
    let refusal = screen.find("-:1201: refused 13").expect("the last row is refused");
    assert!(screen[..refusal].ends_with("\r\u{1b}[K"), "{:?}", &screen[refusal.saturating_sub(80)..refusal]);
}

#[test]
fn nothing_is_shown_elsewhere() {
    let at = folder("terminal-none");
    let rules = file("elsewhere.txt", b"input i 0..9; var v 0..9; v: GX(v = (i));\n");
    let o = shell(&at, &format!("timeout 2 rolvenko trace {} --zeros 1000000000 2>told >/dev/null; cat told", word(&rules)));
    assert_eq!(common::out(&o), "");
}

/// Rows are not kept, so a trace of any length fits into little memory.
#[test]
fn long_traces_take_little_memory() {
    let at = folder("memory");
    let rules = file("many.txt", b"input i 0..9; var v 0..9; v: GX(v = (i));\n");
    for form in ["", "--csv", "--vcd /dev/null"] {
        let o = shell(&at, &format!("ulimit -v 100000; yes 7 | head -n 1000000 | rolvenko trace {} - {form} >/dev/null", word(&rules)));
        assert_eq!(status(&o), 0, "{form} {}", common::told(&o));
    }
    let o = shell(&at, &format!("ulimit -v 100000; yes 7 | head -n 1000000 | rolvenko replay {} - | tail -n 1", word(&rules)));
    assert_eq!(common::out(&o), "1000000 1000000 2 7 7\n");
}
