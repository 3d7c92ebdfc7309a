//! The tool from outside: outputs, refusals in words, exit status, and inputs that are not what they should be.

mod common;

use common::{fed, file, out, status, told, tool, word, TOOL};
use std::fs;
use std::io::Write;
use std::process::{Command, Stdio};

const LATCH: &str = "../examples/launch_latch.txt";
/// Two cases that can hold at once.
const TWO_CASES: &str = "input a 0..1;\nvar v 0..3;\nv: GX(~(v = _v) -> [a = 1] & v = (1) | [_v = 0] & v = (2));\nv: GX(v = _v -> ~([a = 1] | [_v = 0]));\n";

#[test]
fn translates_into_the_image_that_the_service_writes() {
    let image = file("latch.image", b"");
    assert_eq!(status(&tool(&["translate", LATCH, "-o", word(&image)])), 0);
    let text = fs::read(LATCH).unwrap();
    let text = &text[..text.windows(3).position(|w| w == b"\n#\n").unwrap() + 1];
    let mut wanted = vec![0; rolvenko::IMAGE_ROOM];
    let length = rolvenko::translate(text, &mut wanted).unwrap();
    assert_eq!(fs::read(&image).unwrap(), wanted[..length]);
    assert_eq!(status(&tool(&["check", word(&image)])), 0);
    assert_eq!(out(&tool(&["translate", LATCH])), format!("{LATCH}: 71 bytes, 32 instructions\n"));
}

#[test]
fn prints_the_structured_text_that_the_service_writes() {
    let wanted = fs::read_to_string("../examples/launch_latch.st").unwrap();
    assert_eq!(out(&tool(&["st", LATCH])), wanted);
    let file = file("latch.st", b"");
    let printed = tool(&["st", LATCH, "-o", word(&file)]);
    assert_eq!((status(&printed), out(&printed).as_str()), (0, ""));
    assert_eq!(fs::read_to_string(&file).unwrap(), wanted);
    let empty = fed(&["st", "-"], b"\n#\n");
    assert_eq!((status(&empty), out(&empty).as_str()), (0, ""));
    let over = tool(&["st", LATCH, "-o", LATCH]);
    assert!(status(&over) == 2 && told(&over).contains("it would be written over"));
}

#[test]
fn a_word_of_structured_text_is_told() {
    let refused = fed(&["st", "-"], b"input go 0..1;\nvar Then 0..1;\nthen: GX(then = (go));\n");
    assert_eq!((status(&refused), out(&refused).as_str()), (1, ""));
    let said = told(&refused);
    assert!(said.starts_with("-:2:5: refused 21: ") && said.contains("^^^^ THEN is a word of Structured Text"), "{said}");
}

#[test]
fn traces_as_document_01_prints() {
    let mut compared = 0;
    for entry in ["../rulebooks", "../examples"].iter().flat_map(|folder| fs::read_dir(folder).unwrap()) {
        let stored = entry.unwrap().path();
        let given = [stored.with_extension("in"), stored.with_extension("txt")].into_iter().find(|p| p.exists());
        let (Some("out"), Some(given)) = (stored.extension().and_then(|e| e.to_str()), given) else {
            continue;
        };
        let wanted = fs::read_to_string(&stored).unwrap();
        let traced = tool(&["trace", word(&given)]);
        if wanted.starts_with("refused") {
            assert_eq!((out(&traced).as_str(), status(&traced)), ("", 1), "{}", given.display());
        } else {
            assert_eq!(out(&traced), wanted, "{}", given.display());
        }
        compared += 1;
    }
    assert!(compared > 8, "{compared}");
}

#[test]
fn csv_has_the_same_values() {
    let plain = out(&tool(&["trace", LATCH]));
    assert_eq!(out(&tool(&["trace", LATCH, "--csv"])), plain.replace(' ', ","));
}

#[test]
fn a_refused_text_is_told_with_its_token() {
    let path = file("plus.txt", b"input a 0..1;\nvar v 0..3;\nv: GX(v + 1);\n");
    let checked = tool(&["check", word(&path)]);
    let lines: Vec<String> = told(&checked).lines().map(str::to_owned).collect();
    assert_eq!(status(&checked), 1);
    assert_eq!(lines[0], format!("{}:3:9: refused 2: {}", word(&path), rolvenko::meaning(2)));
    assert!(lines.contains(&"3 | v: GX(v + 1);".to_owned()));
    assert!(lines.contains(&"  |         ^ wanted: `=`".to_owned()), "{lines:?}");
}

#[test]
fn what_was_wanted_is_asked_of_the_archive() {
    for (text, wanted) in [
        (&b"input a 0..1;\nvar vv 0..3;\nvv: GX(vv = (_vvv));"[..], "^^^^ not declared; is `vv` meant?"),
        (b"var v 0..1; var w 0..1; v: GX(v = (1));", "no rule for w"),
        (b"var v 0..1; var v 0..1;", "^ declared twice"),
        (b"input i 0..1; i: GX(i = (1));", "^ an input"),
        (b"var v 0..1; v: GX(v = (1)); v: GX(v = (1));", "^ has a rule already"),
        (b"var v 0..1; v GX", "^^ wanted: `:`"),
        (b"var 0..1;", "^ wanted: a new name"),
        (b"var v 5..;", "wanted: a number, `-`"),
    ] {
        let checked = fed(&["check", "-"], text);
        let answer = told(&checked);
        assert!(answer.contains(wanted) && status(&checked) == 1, "{answer}");
    }
}

#[test]
fn a_wrong_list_shows_the_token_wanted() {
    let text = TWO_CASES.replace("[_v = 0]));", "[_v = 1]));");
    let path = file("list.txt", text.as_bytes());
    assert!(told(&tool(&["check", word(&path)])).contains("^ wanted: `0`"));
}

#[test]
fn refused_rows_name_values_and_cases() {
    let path = file("cases.txt", format!("{TWO_CASES}#\n1\n0\n3\n1 1\nx\n").as_bytes());
    let traced = tool(&["trace", word(&path)]);
    let answer = told(&traced);
    assert_eq!(status(&traced), 1);
    for wanted in [
        ":6: refused 15: two cases of v hold: case 1 (line 3) [a = 1] & v = (1) and case 2 (line 3) [_v = 0] & v = (2); a is 1, _v is 0",
        ":8: refused 13: a is 3, outside 0..1",
        ":9: refused 12: the row has 2 numbers; 1 number wanted, a",
        ":10: refused 12: the line is no row: `x` stands in it; 1 number wanted, a",
    ] {
        assert!(answer.contains(wanted), "{wanted}\n{answer}");
    }
    assert_eq!(out(&traced), "scan a v result\n0 0 0 0\n1 0 0 15\n2 0 2 0\n3 0 2 13\n4 0 2 12\n5 0 2 12\n");
}

/// Timers stand between the rules; the cases of a rule behind one are found all the same.
#[test]
fn refused_rows_behind_timers_name_cases() {
    let timers = TWO_CASES.replace("var v 0..3;\n", "var w 0..1;\nvar v 0..3;\nvar y 0..1;\ntimer t of w limit 5;\ntimer u of w limit 7;\ntimer s of y limit 1;\nw: GX(w = (a));\n") + "y: GX(y = (t));\n";
    let o = fed(&["trace", "-"], format!("{timers}#\n1 5\n0 5\n1 5\n1 -5\n").as_bytes());
    assert_eq!(status(&o), 1);
    assert_eq!(out(&o), "scan a w v y t u s result\n0 0 0 0 0 0 0 0 0\n1 0 0 0 0 0 0 0 15\n2 0 0 2 0 0 0 0 0\n3 1 1 1 0 0 0 0 0\n4 1 1 1 0 0 0 0 13\n");
    let said = told(&o);
    assert!(said.contains("two cases of v hold: case 1 (line 9) [a = 1] & v = (1) and case 2 (line 9) [_v = 0] & v = (2); a is 1, _v is 0"), "{said}");
    assert!(said.contains("refused 13: the milliseconds are -5, below 0"), "{said}");
}

#[test]
fn values_out_of_range_name_the_variable() {
    let path = file("over.txt", b"input i 0..9; var v 0..5; v: GX(v = (_v + i));\n#\n3\n3\n");
    let answer = told(&tool(&["trace", word(&path)]));
    assert!(answer.contains(":4: refused 17: v: a new value is outside its range; _v is 3, i is 3"), "{answer}");
}

#[test]
fn an_image_shows_its_instructions_and_where_it_breaks() {
    let path = file("small.image", &[0, 1, 0, 2, 0, 1, 0, 21, 0]);
    let shown = out(&tool(&["show", word(&path)]));
    assert_eq!(shown, "9 bytes, 0 inputs, 1 variable, 2 instructions from place 5\n     2  var 0 0..1 init 0\n     5  01 00           constant 0\n     7  15 00           let 0\n");
    let broken = file("broken.image", &[0, 1, 0, 2, 0, 1, 0, 22, 0]);
    let checked = tool(&["check", word(&broken)]);
    assert_eq!(status(&checked), 1);
    assert!(told(&checked).contains("refused 11 at 7 (settle 0)"), "{}", told(&checked));
}

#[test]
fn rows_from_another_file_and_without_an_end_of_line() {
    let rules = file("sum.txt", b"input i 0..9; var v 0..99; v: GX(v = (_v + i));\n");
    let rows = file("sum.rows", b"1\n2");
    assert_eq!(out(&tool(&["trace", word(&rules), word(&rows)])), "scan i v result\n0 0 0 0\n1 1 1 0\n2 2 3 0\n");
    assert_eq!(out(&fed(&["trace", word(&rules), "-"], b"4")), "scan i v result\n0 0 0 0\n1 4 4 0\n");
    assert_eq!(out(&tool(&["trace", word(&rules)])), "scan i v result\n0 0 0 0\n");
}

#[test]
fn files_that_cannot_be_read_end_with_2() {
    for words in [&["check", "no such file"][..], &["st", "no such file"], &["watch", "no such file"], &["watch", LATCH, "/"], &["st", LATCH, "-o", "/no/folder"], &["trace", "/"], &["trace", LATCH, "/"], &["show", "/"], &["translate", LATCH, "-o", "/no/folder"], &["table", "No/Zone"]] {
        let answer = tool(words);
        assert_eq!((status(&answer), told(&answer).starts_with("rolvenko: ")), (2, true), "{words:?}");
    }
    for words in [&[][..], &["fly"], &["trace"], &["st"], &["trace", LATCH, "--csv", "--vcd", "x"], &["charge", LATCH]] {
        assert_eq!(status(&tool(words)), 2, "{words:?}");
    }
}

#[test]
fn endless_files_are_over_their_limit() {
    for words in [["check", "/dev/zero"], ["trace", "/dev/zero"], ["translate", "/dev/zero"], ["st", "/dev/zero"], ["watch", "/dev/zero"]] {
        let answer = tool(&words);
        assert!(told(&answer).contains("refused 9") && status(&answer) == 1, "{words:?} {}", told(&answer));
    }
}

#[test]
fn bytes_that_are_no_text_are_told() {
    let checked = fed(&["check", "-"], b"input a 0..1;\nvar \xff 0..1;");
    assert!(told(&checked).starts_with("-:2:5: refused 1: "), "{}", told(&checked));
    assert_eq!(status(&checked), 1);
}

#[test]
fn a_closed_pipe_is_no_failure() {
    let rules = file("pipe.txt", b"input i 0..9; var v 0..9; v: GX(v = (i));\n");
    let mut child = Command::new(TOOL).args(["trace", word(&rules), "--zeros", "200000"]).stdout(Stdio::piped()).stderr(Stdio::piped()).spawn().unwrap();
    drop(child.stdout.take());
    let ended = child.wait_with_output().unwrap();
    assert_eq!((status(&ended), told(&ended).as_str()), (0, ""));
    let mut child = Command::new(TOOL).args(["trace", word(&rules), "/dev/stdin"]).stdin(Stdio::piped()).stdout(Stdio::null()).stderr(Stdio::piped()).spawn().unwrap();
    drop(child.stderr.take());
    child.stdin.take().unwrap().write_all(&b"x\n".repeat(20000)).unwrap();
    assert_eq!(child.wait().unwrap().code(), Some(1));
}

#[test]
fn lines_of_any_length_are_rows() {
    let rules = file("zeros.txt", b"input i 0..9; var v 0..9; v: GX(v = (i));\n");
    let row = [&vec![b'0'; 70_000][..], b"7\n-", &[b'0'; 9], b"\n", &vec![b'1'; 70_000][..], b"\n"].concat();
    assert_eq!(out(&fed(&["trace", word(&rules), "-"], &row)), "scan i v result\n0 0 0 0\n1 7 7 0\n2 0 0 0\n3 0 0 12\n");
}

#[test]
fn what_a_file_is_taken_for_is_said() {
    let empty = file("empty", b"");
    assert_eq!(out(&tool(&["check", word(&empty)])), format!("{}: rules, accepted\n", word(&empty)));
    assert_eq!(status(&tool(&["check", "--image", word(&empty)])), 1);
    let nul = file("nul.txt", b"var v\0 0..1;");
    assert!(told(&tool(&["check", "--rules", word(&nul)])).contains(":1:6: refused 1: "));
    let wide = file("wide.image", &[2, 0xFF, 0xFF, 0xFF, 0xFF, 0x0F, 0, 0, 0]);
    assert_eq!(status(&tool(&["show", word(&wide)])), 1);
}

#[test]
fn rows_come_from_one_place() {
    let rules = file("rows.txt", b"input i 0..9;\n#\n1\n");
    assert_eq!(status(&tool(&["trace", word(&rules), "--zeros", "1"])), 2);
    assert_eq!(status(&tool(&["trace", "-", "-"])), 2);
}

#[test]
fn a_broken_farm_table_is_refused_before_any_row() {
    let rules = file("clock.txt", b"input day 0..99999;\n");
    let table = file("falling.table", b"10 60\n5 0\n");
    let traced = tool(&["trace", word(&rules), "--table", word(&table), "--start", "1"]);
    assert_eq!((status(&traced), told(&traced).contains("falling.table: refused 19: entry 2: minute 5 does not come after 10")), (1, true));
    let endless = tool(&["trace", word(&rules), "--table", "/dev/zero", "--start", "1"]);
    assert_eq!(status(&endless), 2);
}

#[test]
fn promises_are_watched() {
    let text = b"input i 0..1;\nvar v 0..9;\nv: GX(v = (_v + i));\nwatch: G([v >= _v]);\nwatch: G([i = 1] -> X([v > _v]));\n#\n1\n2\n1\n0\n";
    let rules = file("promises.txt", text);
    let watched = tool(&["watch", word(&rules)]);
    let at = word(&rules);
    let wanted = format!(
        "{at}:4:1: holds at 4 places: watch: G([v >= _v]);\n\
         {at}:5:1: fails at place 3 (row 4): watch: G([i = 1] -> X([v > _v])); where i is 1; then v is 2, _v is 2\n"
    );
    assert_eq!((status(&watched), out(&watched)), (1, wanted));
    assert!(told(&watched).starts_with(&format!("{at}:8: refused 13: ")), "{}", told(&watched));
    let kept = file("kept.txt", b"input i 0..1; watch: G([i = 0]);\n#\n0\n");
    let holds = tool(&["watch", word(&kept)]);
    assert_eq!((status(&holds), out(&holds)), (0, format!("{}:1:15: holds at 2 places: watch: G([i = 0]);\n", word(&kept))));
    // a place of the start, and no watch at all
    assert!(out(&fed(&["watch", "-"], b"input i 0..1; watch: G([i = 1]);")).contains(": fails at the start: watch: G([i = 1]); where i is 0\n"));
    assert_eq!(out(&fed(&["watch", "-"], b"input i 0..1;")), "-: no watch stands behind the rules\n");
}

#[test]
fn licences_are_billed() {
    let rules = file("held.txt", b"input want 0..9; var held 0..9; held: GX(held = (want));\n#\n2\n5\n");
    let bill = tool(&["charge", word(&rules), "--of", "held", "--rate", "100", "--threshold", "3", "--rate-above", "250", "--minutes", "60"]);
    assert_eq!(out(&bill), "held: 1000 0/60 cents over 2 rows, 0 refused\n");
    let input = tool(&["charge", word(&rules), "--of", "want", "--rate", "1"]);
    assert!(told(&input).contains("refused 28") && status(&input) == 1);
    assert_eq!(status(&tool(&["charge", word(&rules), "--of", "nobody", "--rate", "1"])), 2);
}

#[test]
fn a_profile_is_closed_or_shows_what_stops_it() {
    let rules = file("sum_of.txt", b"input i 0..1; var v 0..3; v: GX(v = (_v + i));\n");
    let open = tool(&["closed", word(&rules)]);
    assert_eq!(status(&open), 1);
    assert!(told(&open).contains(": refused 27 after 7 scans: state i 0, v 3; row i 1\n  refused 17: v: a new value is outside its range; _v is 3, i is 1\n"), "{}", told(&open));
    let rules = file("sum_mod.txt", b"input i 0..1; var v 0..3; v: GX(v = ((_v + i) mod 4));\n");
    assert_eq!((status(&tool(&["closed", word(&rules)])), out(&tool(&["closed", word(&rules)]))), (0, format!("{}: closed: no in-range row is ever refused\n", word(&rules))));
    let rules = file("wide.txt", b"var v 0..65536; v: GX(v = (_v));\n");
    assert!(told(&tool(&["closed", word(&rules)])).contains("refused 26"));
}
