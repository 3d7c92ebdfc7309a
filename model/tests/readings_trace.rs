//! The readings on the trace program.

use rolvenko_model::trace;

fn prints(input: &str, output: &str) {
    assert_eq!(
        String::from_utf8(trace(input.as_bytes())).unwrap(),
        output,
        "{input:?}"
    );
}

const ONE: &str = "input i -9..9;\n";
const HEAD: &str = "scan i result\n0 0 0\n";

#[test]
fn trace_1_text() {
    prints("var v 0..1;\n#", "refused 6 at 12\n");
    prints("var v 0..1;\n#\n", "refused 6 at 12\n");
    prints("var v 0..1;", "refused 6 at 11\n");
    prints("#\n", "scan result\n0 0\n");
    prints("#", "scan result\n0 0\n");
    prints("", "scan result\n0 0\n");
    prints("\n\n#\n\n", "scan result\n0 0\n1 0\n");
    prints("$", "refused 1 at 0\n");
    prints("input i 5..4;\n#\n1\n", "refused 3 at 11\n");
}

/// The result of one line as the only row.
fn result(line: &str) -> String {
    let printed = trace(format!("{ONE}#\n{line}\n").as_bytes());
    let printed = String::from_utf8(printed).unwrap();
    let rest = printed.strip_prefix(HEAD).unwrap();
    rest.trim_end().to_string()
}

#[test]
fn trace_2_rows() {
    for (line, printed) in [
        ("1", "1 1 0"),
        ("01", "1 1 0"),
        ("-0", "1 0 0"),
        ("-007", "1 -7 0"),
        ("00000000000000000000000000000005", "1 5 0"),
        ("10", "1 0 13"),
        ("2147483647", "1 0 13"),
        ("-2147483648", "1 0 13"),
        ("2147483648", "1 0 12"),
        ("-2147483649", "1 0 12"),
        ("99999999999999999999999999", "1 0 12"),
        ("", "1 0 12"),
        ("+1", "1 0 12"),
        ("1 ", "1 0 12"),
        (" 1", "1 0 12"),
        ("1  1", "1 0 12"),
        ("1 1", "1 0 12"),
        ("1\t", "1 0 12"),
        ("\t1", "1 0 12"),
        ("1\r", "1 0 12"),
        ("-", "1 0 12"),
        ("- 1", "1 0 12"),
        ("--1", "1 0 12"),
        ("1-", "1 0 12"),
        ("x", "1 0 12"),
        ("0x1", "1 0 12"),
        (" ", "1 0 12"),
    ] {
        assert_eq!(result(line), printed, "{line:?}");
    }
}

#[test]
fn trace_2_rows_of_two() {
    let two = "input a 0..9; input b 0..9;\n#\n";
    let head = "scan a b result\n0 0 0 0\n";
    for (line, printed) in [
        ("1 2", "1 1 2 0"),
        ("1  2", "1 0 0 12"),
        ("1\t2", "1 0 0 12"),
        ("1 2 ", "1 0 0 12"),
        ("1 2\r", "1 0 0 12"),
        ("1", "1 0 0 12"),
        ("1 2 3", "1 0 0 12"),
        ("1 12", "1 0 0 13"),
        ("12 2147483648", "1 0 0 12"),
    ] {
        prints(&format!("{two}{line}\n"), &format!("{head}{printed}\n"));
    }
    // A line that is no row has the wrong length, also where no input is declared.
    prints("#\n\nx\n 1\n", "scan result\n0 0\n1 0\n2 12\n3 12\n");
}

#[test]
fn trace_3_mark() {
    prints(&format!("{ONE}#"), HEAD);
    prints(&format!("{ONE}#\n"), HEAD);
    prints(&format!("{ONE}#\r\n1\n"), "refused 1 at 15\n");
    prints(&format!("{ONE} #\n1\n"), "refused 1 at 16\n");
    prints(&format!("{ONE}##\n1\n"), "refused 1 at 15\n");
    prints(
        &format!("{ONE}#\n#\n1\n"),
        &format!("{HEAD}1 0 12\n2 1 0\n"),
    );
    prints("input i -9..9; #\n", "refused 1 at 15\n");
    // "Without a `#` line there are no rows."
    prints(ONE, HEAD);
}

#[test]
fn trace_4_lines() {
    // Row numbers count every line; the last may have no LF.
    prints(
        &format!("{ONE}#\n1\n\n99\n2"),
        &format!("{HEAD}1 1 0\n2 1 12\n3 1 13\n4 2 0\n"),
    );
    prints(&format!("{ONE}#\n\n"), &format!("{HEAD}1 0 12\n"));
    prints("#\n\n\n", "scan result\n0 0\n1 0\n2 0\n");
    // Standard input has no limit but the text's.
    let rows = "1\n".repeat(40_000);
    let printed = trace(format!("{ONE}#\n{rows}").as_bytes());
    assert!(printed.ends_with(b"\n40000 1 0\n"));
    let fill = " ".repeat(32_768 - ONE.len() - 1);
    prints(&format!("{ONE}{fill}\n#\n3\n"), &format!("{HEAD}1 3 0\n"));
    prints(&format!("{ONE}{fill} \n#\n3\n"), "refused 9 at 0\n");
    prints(&format!("${ONE}{fill} \n#\n3\n"), "refused 9 at 0\n");
}

#[test]
fn refused_rows_keep_the_state() {
    let text = "input i 0..9; var v 0..9;\n\
        v: GX(~(v = _v) -> [i = 1] & v = (1) | [i > 0] & v = (10 / (i - 2)));\n\
        v: GX(v = _v -> ~([i = 1] | [i > 0]));\n#\n";
    let rows = "0\n1\n2\n3\n3\n7\n4\n1 1\n10\n";
    prints(
        &format!("{text}{rows}"),
        "scan i v result\n0 0 0 0\n1 0 0 0\n2 0 0 15\n3 0 0 14\n4 0 0 17\n5 0 0 17\n\
         6 7 2 0\n7 4 5 0\n8 4 5 12\n9 4 5 13\n",
    );
    let again = "7\n7\n";
    prints(
        &format!("{text}{again}"),
        "scan i v result\n0 0 0 0\n1 7 2 0\n2 7 2 16\n",
    );
}
