//! "Latches to try", the arithmetic and the example of the trace program.

mod common;

use common::{answer, evaluate, hex, image};
use rolvenko_model::generate::{expected, nested_condition, nested_expression};
use rolvenko_model::{check, instructions, number, plain_scan, read_text, satisfies, scan, start};
use rolvenko_model::{trace, Refusal, ScanRefusal};

const L2: &str =
    "var v 0..1; v: GX(~(v = _v) -> [_v = 0] & v = (1)); v: GX(v = _v -> ~([_v = 0]));";

#[test]
fn l1_empty_text() {
    assert_eq!(hex(&image("")), "00 00");
    assert_eq!(scan(&image(""), &mut [], &[]), Ok(0));
    assert_eq!(instructions(&image("")), 0);
    assert_eq!(start(&image(""), &mut []), Ok(()));
}

#[test]
fn l2_latch() {
    let image = image(L2);
    assert_eq!(
        hex(&image),
        "00 01 00 02 00 03 00 01 00 0A 13 01 02 14 00 16 00"
    );
    assert_eq!(image.len(), 17);
    assert_eq!(instructions(&image), 7);
    let mut state = [77];
    assert_eq!(start(&image, &mut state), Ok(()));
    assert_eq!(state, [0]);
    for expected in [1, 1] {
        assert_eq!(scan(&image, &mut state, &[]), Ok(7));
        assert_eq!(state, [expected]);
    }
}

#[test]
fn l3_division() {
    assert_eq!(evaluate("-7 / 2", 0, 0), Ok(-3));
    assert_eq!(evaluate("-7 mod 2", 0, 0), Ok(-1));
    assert_eq!(evaluate("7 mod -2", 0, 0), Ok(1));
    assert_eq!(evaluate("a / b", -7, 2), Ok(-3));
    assert_eq!(evaluate("a mod b", -7, 2), Ok(-1));
    assert_eq!(evaluate("a mod b", 7, -2), Ok(1));
}

#[test]
fn l4_least_number() {
    assert_eq!(evaluate("a / b", i32::MIN, -1), Err(14));
    assert_eq!(evaluate("a mod b", i32::MIN, -1), Ok(0));
    assert_eq!(evaluate("(-2147483647 - 1) / -1", 0, 0), Err(14));
    assert_eq!(evaluate("(-2147483647 - 1) mod -1", 0, 0), Ok(0));
}

#[test]
fn l5_brackets() {
    for (depth, mark) in [(16, ""), (17, "@")] {
        let inner = nested_expression(depth, mark);
        let (text, refusal) = expected(8, &format!("var v 0..1; v: GX(v = ({inner}));"));
        assert_eq!(refusal.is_some(), depth == 17);
        assert_eq!(read_text(&text).err(), refusal);
        let inner = nested_condition(8, depth - 8, mark);
        let text = format!("var v 0..1; v: GX(~(v = _v) -> [{inner}] & v = (1)); ");
        let (text, refusal) = expected(8, &text);
        let end = Refusal::new(2, text.len());
        assert_eq!(read_text(&text).err(), Some(refusal.unwrap_or(end)));
    }
}

/// A latch with these cases: condition and value.
fn latch(cases: &[(&str, &str)]) -> String {
    let change: Vec<String> = cases
        .iter()
        .map(|(condition, value)| format!("[{condition}] & v = ({value})"))
        .collect();
    let list: Vec<String> = cases.iter().map(|(c, _)| format!("[{c}]")).collect();
    format!(
        "var v 0..1; v: GX(~(v = _v) -> {}); v: GX(v = _v -> ~({}));",
        change.join(" | "),
        list.join(" | ")
    )
}

/// Number and steps of the first scan, the plain scan's number being the same.
fn first_scan(text: &str) -> (u8, u32) {
    let program = read_text(text.as_bytes()).unwrap();
    let mut plain_state = vec![0];
    let plain = plain_scan(&program, &mut plain_state, &[]).err();
    let mut state = [0];
    match scan(&image(text), &mut state, &[]) {
        Ok(steps) => {
            assert_eq!((plain, &plain_state[..]), (None, &state[..]));
            (0, steps)
        }
        Err(ScanRefusal {
            number,
            place,
            steps,
        }) => {
            assert_eq!((plain, place, state), (Some(number), 0, [0]));
            (number, steps)
        }
    }
}

#[test]
fn l6_two_true_cases() {
    let text = latch(&[("_v = 0", "1"), ("_v <> 1", "1")]);
    // Case 1 has 6 instructions, the second gate is the 10th.
    assert_eq!(first_scan(&text), (15, 10));
}

#[test]
fn l7_previous_value_picked() {
    assert_eq!(first_scan(&latch(&[("_v = 0", "_v")])), (16, 6));
    assert_eq!(first_scan(&latch(&[("_v = 1", "_v")])), (0, 7));
}

#[test]
fn l8_groups() {
    let mut bytes = Vec::new();
    number::write(128, &mut bytes);
    assert_eq!(hex(&bytes), "80 01");
    assert_eq!(check(&[0x80, 0x00]), Err(Refusal::new(11, 0)));
    assert_eq!(check(&[0, 0]), Ok(()));
    let text = "var v 0..64; v: GX(v = (64));";
    assert_eq!(hex(&image(text)), "00 01 00 80 01 00 01 80 01 15 00");
}

#[test]
fn whole_numbers() {
    let (min, max) = (i32::MIN, i32::MAX);
    assert_eq!(evaluate("a + b", max, 1), Err(14));
    assert_eq!(evaluate("a - b", min, 1), Err(14));
    assert_eq!(evaluate("a * b", 65_536, 32_768), Err(14));
    assert_eq!(evaluate("a * b", 65_536, -32_768), Ok(min));
    assert_eq!(evaluate("-a", min, 0), Err(14));
    assert_eq!(evaluate("-a", max, 0), Ok(-max));
    assert_eq!(evaluate("a / b", 1, 0), Err(14));
    assert_eq!(evaluate("a / b", 0, 0), Err(14));
    assert_eq!(evaluate("a + 1 - 1", max, 0), Err(14));
    assert_eq!(evaluate("a - 1 + 1", max, 0), Ok(max));
    assert_eq!(evaluate("2 - 3 - 4", 0, 0), Ok(-5));
    assert_eq!(evaluate("2 - (3 - 4)", 0, 0), Ok(3));
    assert_eq!(evaluate("100 / 7 * 7 mod 5", 0, 0), Ok(3));
    assert_eq!(evaluate("1 + 2 * 3", 0, 0), Ok(7));
    assert_eq!(evaluate("-a * -b", 3, 4), Ok(12));
    assert_eq!(evaluate("a - -b", 3, 4), Ok(7));
    assert_eq!(evaluate("-(a + b)", 3, 4), Ok(-7));
}

/// "a mod b = a - b * (a / b) in whole numbers", and A.5's result by zero, for all pairs of
/// chosen numbers.
#[test]
fn division_and_mod() {
    let (min, max) = (i32::MIN, i32::MAX);
    let numbers = [
        min,
        min + 1,
        -1000,
        -7,
        -2,
        -1,
        0,
        1,
        2,
        7,
        1000,
        max - 1,
        max,
    ];
    for a in numbers {
        for b in numbers {
            let (divided, rest) = (evaluate("a / b", a, b), evaluate("a mod b", a, b));
            if b == 0 {
                assert_eq!((divided, rest), (Err(14), Ok(0)));
                continue;
            }
            let (wide_a, wide_b) = (i64::from(a), i64::from(b));
            // Cut toward zero: the quotient of the sizes with the sign of the result.
            let size = wide_a.abs() / wide_b.abs();
            let quotient = if (a < 0) == (b < 0) { size } else { -size };
            assert_eq!(divided, i32::try_from(quotient).map_err(|_| 14));
            assert_eq!(rest.map(i64::from), Ok(wide_a - wide_b * quotient));
        }
    }
}

/// A.5: "a rotation rule over an empty host list depends on it".
#[test]
fn a5_rotation() {
    let text = "input hosts 0..9; var turn 0..9; turn: GX(turn = ((_turn + 1) mod hosts));";
    let image = image(text);
    let program = read_text(text.as_bytes()).unwrap();
    let (mut state, mut plain) = ([0; 2], [0; 2]);
    for (hosts, turn) in [(3, 1), (3, 2), (0, 0), (3, 1)] {
        assert_eq!(scan(&image, &mut state, &[hosts]), Ok(6));
        assert_eq!(plain_scan(&program, &mut plain, &[hosts]), Ok(()));
        assert_eq!((state, plain), ([hosts, turn], [hosts, turn]));
    }
    for turn in [0, 1, 5] {
        let trace = [vec![0, 0], vec![0, turn]];
        assert_eq!(satisfies(&program, &trace), turn == 0);
    }
    assert_eq!(evaluate("a mod b / b", 7, 0), Err(14));
}

const EXAMPLE: &str = "input go 0..1; var run 0..1;
run: GX(~(run = _run) -> [_run = 0 & go = 1] & run = (1) | [_run = 1 & go = 0] & run = (0));
run: GX(run = _run -> ~([_run = 0 & go = 1] | [_run = 1 & go = 0]));
#
1
1
2
0
";

#[test]
fn trace_example() {
    let printed = "scan go run result\n0 0 0 0\n1 1 1 0\n2 1 1 0\n3 1 1 13\n4 0 0 0\n";
    assert_eq!(
        String::from_utf8(trace(EXAMPLE.as_bytes())).unwrap(),
        printed
    );
}

/// "Three misreadings".
#[test]
fn misreadings() {
    // Stopping at the first true case would hide 15.
    assert_eq!(first_scan(&latch(&[("1 = 1", "1"), ("1 = 1", "1")])).0, 15);
    // `_` reads the value before the scan, also after the variable's own rule.
    let text = "var a 0..9; var b 0..9; a: GX(a = (_a + 1)); b: GX(b = (_a * 2 + a));";
    let mut state = [0, 0];
    let image = image(text);
    assert_eq!(scan(&image, &mut state, &[]), Ok(10));
    assert_eq!(state, [1, 1]);
    // The previous value of an input is the one of the scan before.
    let text = "input d 0..1; var n 0..9; n: GX(n = (_n + d * (1 - _d)));";
    let image = common::image(text);
    let mut state = [0, 0];
    let mut counted = Vec::new();
    for row in [1, 1, 0, 1] {
        assert!(scan(&image, &mut state, &[row]).is_ok());
        counted.push(state[1]);
    }
    assert_eq!(counted, [1, 1, 1, 2]);
}

#[test]
fn accepted_and_refused_examples() {
    assert_eq!(answer(L2.as_bytes()), (0, 0));
    let declared = b"input go 0..1 init 0; var run 0..1;";
    assert_eq!(answer(declared), (6, declared.len()));
}
