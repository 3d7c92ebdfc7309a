//! The readings on images and on start and scan.

mod common;

use common::{evaluate, image};
use rolvenko_model::{
    check, instructions, plain_scan, read_text, satisfies, scan, start, Refusal, ScanRefusal,
};

/// Expects 11 at `place`, from check, start and scan.
fn unsound(bytes: &[u8], place: usize) {
    let refusal = Refusal::new(11, place);
    assert_eq!(check(bytes), Err(refusal), "{bytes:?}");
    let mut state = [5; 3];
    assert_eq!(start(bytes, &mut state), Err(refusal));
    let scanned = scan(bytes, &mut state, &[9; 70]);
    let number = 11;
    assert_eq!(
        scanned,
        Err(ScanRefusal {
            number,
            place,
            steps: 0
        })
    );
    assert_eq!(state, [5; 3]);
}

/// Code after the header of one input and one variable, both 0..1: the code begins at 8.
fn unsound_code(code: &[u8], place: usize) {
    unsound(&[&[1, 1, 0, 2, 0, 0, 2, 0], code].concat(), place);
}

#[test]
fn images_1_header() {
    // low 1, high 0: at high.
    unsound(&[1, 0, 2, 0, 0], 3);
    // A start over high, a start under low.
    unsound(&[1, 0, 0, 2, 4], 4);
    unsound(&[1, 0, 0, 2, 1], 4);
    // Input count over 64, sum over 64.
    unsound(&[65, 0], 0);
    unsound(&[65], 0);
    unsound(&[64, 1], 1);
    unsound(&[0, 65], 1);
    unsound(&[40, 25], 1);
    // 64 names are allowed.
    let inputs = [&[64, 0][..], &[0; 192]].concat();
    assert_eq!(check(&inputs), Ok(()));
    let mixed = [&[40, 24][..], &[0; 192]].concat();
    unsound(&mixed, mixed.len());
}

#[test]
fn images_2_place() {
    unsound(&[0, 0, 1, 0], 4);
    // Faults of an operand: cut, not shortest, over 32 bits, unknown id.
    unsound_code(&[3, 0, 1], 10);
    unsound_code(&[3, 0, 1, 0x80], 10);
    unsound_code(&[3, 0, 1, 0x80, 0x00], 10);
    unsound_code(&[3, 0, 1, 0x80, 0x80, 0x80, 0x80, 0x10], 10);
    unsound_code(&[3, 0, 3, 2], 10);
    unsound_code(&[3, 0, 2, 2], 10);
    unsound_code(&[3, 0, 21, 2], 10);
    unsound_code(&[3, 0, 21, 0x81, 0x00], 10);
    // Header numbers cut short, or nothing of them there.
    unsound(&[], 0);
    unsound(&[0x80], 0);
    unsound(&[0x81, 0x82], 0);
    unsound(&[0], 1);
    unsound(&[0, 0x80], 1);
    unsound(&[1, 0], 2);
    unsound(&[1, 0, 0x80], 2);
    unsound(&[1, 0, 0, 0x80, 0x80], 3);
    unsound(&[1, 0, 0, 2], 4);
    unsound(&[2, 0, 0, 2, 0], 5);
}

#[test]
fn images_3_missing_at_the_end() {
    // Gate without pick.
    unsound_code(&[1, 0, 1, 0, 10, 19], 14);
    unsound_code(&[1, 0, 1, 0, 10, 19, 1, 2], 16);
    // Picks without settle.
    unsound_code(&[1, 0, 1, 0, 10, 19, 1, 2, 20, 1], 18);
    // Values held.
    unsound_code(&[1, 2, 21, 1, 1, 0], 14);
    // A variable without rule.
    unsound_code(&[], 8);
    let sound = [
        1, 1, 0, 2, 0, 0, 2, 0, 1, 0, 1, 0, 10, 19, 1, 2, 20, 1, 22, 1,
    ];
    assert_eq!(check(&sound), Ok(()));
    assert_eq!(instructions(&sound), 7);
}

#[test]
fn images_4_intruders() {
    // Between gate and pick.
    unsound_code(&[1, 0, 1, 0, 10, 19, 1, 2, 1, 2, 10], 18);
    unsound_code(&[1, 0, 1, 0, 10, 19, 19], 14);
    unsound_code(&[1, 0, 1, 0, 10, 19, 1, 2, 21, 1], 16);
    unsound_code(&[1, 0, 1, 0, 10, 19, 1, 2, 22, 1], 16);
    unsound_code(&[1, 0, 1, 0, 10, 19, 16], 14);
    // Between pick and settle.
    unsound_code(&[1, 0, 1, 0, 10, 19, 1, 2, 20, 1, 1, 2, 21, 1], 20);
    // Other instructions are allowed there if they are taken up by a gate.
    unsound_code(&[1, 0, 1, 0, 10, 19, 1, 2, 20, 1, 1, 2, 22, 1], 20);
    // The 41st value breaks at its push.
    unsound_code(&[3, 0].repeat(41), 8 + 80);
    let mut forty = [3, 0].repeat(40);
    forty.extend([4; 39]);
    forty.extend([21, 1]);
    let sound = [&[1, 1, 0, 2, 0, 0, 2, 0], &forty[..]].concat();
    assert_eq!(check(&sound), Ok(()));
    // 39 yes-no values and one number are held; one more is too many.
    let mut pairs = [1, 0, 1, 0, 10].repeat(39);
    pairs.extend([1, 0]);
    unsound_code(&[&pairs[..], &[1, 0]].concat(), 8 + 197);
}

/// "9 ... before all else" for images.
#[test]
fn images_over_the_limit() {
    let over = vec![0; 65_537];
    assert_eq!(check(&over), Err(Refusal::new(9, 0)));
    assert_eq!(start(&over, &mut []), Err(Refusal::new(9, 0)));
    let refused = scan(&over, &mut [1], &[1]).unwrap_err();
    assert_eq!((refused.number, refused.place, refused.steps), (9, 0, 0));
    unsound(&over[1..], 2);
    // A sound image of 65,536 bytes, and the same with one instruction more.
    let mut long = vec![0, 1, 0, 2, 0, 1, 0];
    while long.len() + 5 < 65_536 {
        long.extend([1, 0, 4]);
    }
    while long.len() + 2 < 65_536 {
        long.push(9);
    }
    long.extend([21, 0]);
    assert_eq!((check(&long), long.len()), (Ok(()), 65_536));
    long.insert(7, 9);
    assert_eq!(check(&long), Err(Refusal::new(9, 0)));
}

const LIMITED: &str = "input i 0..1; var v 0..1; v: GX(v = (10 / (1 - _v) * 0 + i));";

#[test]
fn scan_1_order_of_refusals() {
    let image = image(LIMITED);
    let number = |state: &[i32], row: &[i32]| {
        let mut lent = state.to_vec();
        let answer = scan(&image, &mut lent, row).err();
        if answer.is_some() {
            assert_eq!(lent, state);
        }
        answer.map_or(0, |refusal| refusal.number)
    };
    assert_eq!(number(&[0, 0], &[1]), 0);
    assert_eq!(number(&[0], &[2]), 12);
    assert_eq!(number(&[0, 5], &[]), 12);
    assert_eq!(number(&[0, 5, 0], &[1]), 12);
    assert_eq!(number(&[0, 0], &[1, 1]), 12);
    assert_eq!(number(&[2, 0], &[2]), 18);
    assert_eq!(number(&[0, -1], &[2]), 18);
    assert_eq!(number(&[0, 1], &[2]), 13);
    assert_eq!(number(&[0, 1], &[-1]), 13);
    assert_eq!(number(&[0, 1], &[1]), 14);
    // "The plain scan tests neither 12 nor 18 of the state."
    let program = read_text(LIMITED.as_bytes()).unwrap();
    let mut state = [7, -9];
    assert_eq!(plain_scan(&program, &mut state, &[1]), Ok(()));
    assert_eq!(state, [1, 1]);
    assert_eq!(plain_scan(&program, &mut state, &[]), Err(12));
    assert_eq!(plain_scan(&program, &mut state, &[2]), Err(13));
    assert_eq!(plain_scan(&program, &mut state, &[1]), Err(14));
}

/// A pair of formulas of `v` in 0..2 with a list of conditions and values.
fn change(cases: &[(&str, &str)]) -> String {
    let all: Vec<String> = cases
        .iter()
        .map(|(condition, value)| format!("[{condition}] & v = ({value})"))
        .collect();
    let list: Vec<String> = cases.iter().map(|(c, _)| format!("[{c}]")).collect();
    format!(
        "var v 0..2; v: GX(~(v = _v) -> {}); v: GX(v = _v -> ~({}));",
        all.join(" | "),
        list.join(" | ")
    )
}

fn refused(text: &str) -> (u8, u32) {
    let program = read_text(text.as_bytes()).unwrap();
    let mut state = [0];
    let refusal = scan(&image(text), &mut state, &[]).unwrap_err();
    assert_eq!((refusal.place, state), (0, [0]));
    assert_eq!(plain_scan(&program, &mut state, &[]), Err(refusal.number));
    (refusal.number, refusal.steps)
}

#[test]
fn scan_2_steps() {
    // Case 1 (6 instructions) is passed over; 16 is at the pick of case 2.
    assert_eq!(
        refused(&change(&[("1 = 2", "1"), ("1 = 1", "0")])),
        (16, 12)
    );
    assert_eq!(
        refused(&change(&[("1 = 2", "1"), ("1 = 1", "3")])),
        (17, 12)
    );
    assert_eq!(
        refused(&change(&[("1 = 1", "1"), ("1 = 1", "3")])),
        (15, 10)
    );
    assert_eq!(
        refused(&change(&[("1 = 2", "1"), ("1 / 0 = 1", "0")])),
        (14, 9)
    );
    assert_eq!(refused("var v 0..1; v: GX(v = (2));"), (17, 2));
    // What a gate passes over refuses nothing.
    let text = change(&[("1 = 2", "1 / 0 + 3"), ("1 = 1", "1")]);
    let mut state = [0];
    assert_eq!(scan(&image(&text), &mut state, &[]), Ok(17));
    assert_eq!(state, [1]);
}

#[test]
fn scan_3_order_inside_a_rule() {
    // Case 1's 16 or 17 comes before case 2's condition.
    assert_eq!(
        refused(&change(&[("1 = 1", "0"), ("1 / 0 = 1", "1")])).0,
        16
    );
    assert_eq!(
        refused(&change(&[("1 = 1", "9"), ("1 / 0 = 1", "1")])).0,
        17
    );
    // 15 before the expression is worked out.
    assert_eq!(
        refused(&change(&[("1 = 1", "1"), ("1 = 1", "1 / 0")])).0,
        15
    );
    // 16 before 17: a previous value outside the range can only be in the plain scan.
    let text = change(&[("1 = 1", "_v")]);
    let program = read_text(text.as_bytes()).unwrap();
    assert_eq!(plain_scan(&program, &mut [9], &[]), Err(16));
    // A later condition is worked out though an earlier one holds.
    assert_eq!(
        refused(&change(&[("1 = 1", "1"), ("1 / 0 = 1", "1")])).0,
        14
    );
    // Both operands of `&` and `|` are worked out.
    assert_eq!(refused(&change(&[("1 = 2 & 1 / 0 = 1", "1")])).0, 14);
    assert_eq!(refused(&change(&[("1 = 1 | 1 / 0 = 1", "1")])).0, 14);
    // "The quotient inside mod is not range-tested."
    assert_eq!(evaluate("a mod b", i32::MIN, -1), Ok(0));
}

#[test]
fn scan_4_negate() {
    let bytes = image("var v -9..9; v: GX(v = (-5));");
    assert_eq!(bytes, [0, 1, 17, 18, 0, 1, 10, 9, 21, 0]);
    assert_eq!(evaluate("-a", i32::MIN, 0), Err(14));
    assert_eq!(evaluate("-(-2147483647 - 1)", 0, 0), Err(14));
}

#[test]
fn scan_5_places() {
    let image = image(LIMITED);
    assert_eq!(start(&image, &mut [0]), Err(Refusal::new(12, 0)));
    assert_eq!(start(&image, &mut [0; 3]), Err(Refusal::new(12, 0)));
    assert_eq!(start(&image, &mut [9; 2]), Ok(()));
    let refused = scan(&image, &mut [0; 3], &[0]).unwrap_err();
    assert_eq!((refused.number, refused.place, refused.steps), (12, 0, 0));
}

#[test]
fn scan_6_other_traces() {
    let text = "input i 0..1; var v 0..1; v: GX(v = (i));";
    let program = read_text(text.as_bytes()).unwrap();
    assert!(satisfies(&program, &[vec![0, 0]]));
    assert!(satisfies(&program, &[vec![0, 0], vec![1, 1]]));
    assert!(!satisfies(&program, &[vec![0, 0], vec![1, 0]]));
    // Any whole numbers, but states of the right length only.
    assert!(satisfies(&program, &[vec![0, 0], vec![1 << 40, 1 << 40]]));
    assert!(!satisfies(&program, &[vec![0, 0], vec![1]]));
    assert!(!satisfies(&program, &[vec![0, 0], vec![1, 1, 1]]));
    // The start alone satisfies every formula.
    assert!(satisfies(&program, &[vec![0, 9]]));
    assert!(!satisfies(&program, &[vec![0, 9], vec![1, 9]]));
}

#[test]
fn scan_7_formulas_with_14() {
    let step = |text: &str, v: i64| {
        let program = read_text(text.as_bytes()).unwrap();
        satisfies(&program, &[vec![0], vec![v]])
    };
    // A condition that meets 14, whether v changes or not.
    let condition = change(&[("1 = 1", "1"), ("1 / _v = 1", "2")]);
    let second = change(&[("1 = 2", "1"), ("1 / _v = 1", "2")]);
    // A case's expression that meets 14, where its condition holds or not.
    let expression = change(&[("1 = 1", "1 / _v")]);
    let not_needed = change(&[("1 = 2", "1 / _v")]);
    for v in [0, 1, 2, -1] {
        assert!(!step(&condition, v));
        assert!(!step(&second, v));
        assert!(!step(&expression, v));
        assert_eq!(step(&not_needed, v), v == 0);
        assert!(!step("var v 0..1; v: GX(v = (1 / _v));", v));
    }
    // Two cases that hold, one with 14 in its expression.
    let both = change(&[("1 = 1", "1 / _v"), ("1 = 1", "2")]);
    assert!((-1..4).all(|v| !step(&both, v)));
    // Two cases that hold: one of them is enough for the formula.
    let two = change(&[("1 = 1", "1"), ("1 = 1", "2")]);
    let found: Vec<bool> = (-1..4).map(|v| step(&two, v)).collect();
    assert_eq!(found, [false, false, true, true, false]);
}

/// "Every operation works on whole numbers and its result must be in the 32-bit signed
/// range", also where a trace holds larger numbers.
#[test]
fn formulas_with_large_numbers() {
    let step = |expression: &str, i: i64, v: i64| {
        let text = format!("input i 0..1; var v 0..1; v: GX(v = ({expression}));");
        let program = read_text(text.as_bytes()).unwrap();
        satisfies(&program, &[vec![0, 0], vec![i, v]])
    };
    let large = 1i64 << 40;
    assert!(step("i", large, large));
    assert!(step("i", i64::MIN, i64::MIN));
    assert!(!step("i + 0", large, large));
    assert!(!step("i * 1", large, large));
    assert!(!step("i / 1", large, large));
    assert!(!step("-i", large, -large));
    assert!(!step("i - 1", large, large - 1));
    assert!(!step("i * i", i64::MAX, 1));
    assert!(step("i mod 7", large, 2));
    assert!(step("i mod 7", -large, -2));
    assert!(step("7 mod i", i64::MIN, 7));
    assert!(step("i / i", i64::MIN, 1));
    assert!(step("i / 1024", large, 1 << 30));
    assert!(!step("i / 512", large, 1 << 31));
    assert!(step("i / 512", -large, -(1 << 31)));
    assert!(!step("2147483647 + i", 1, 1 << 31));
    assert!(step("2147483647 + i", -1, (1 << 31) - 2));
    assert!(step("i mod 0", large, 0));
    assert!(!step("i mod 0", large, large));
    assert!(!step("i / 0 * 0", 0, 0));
}

/// "A number of more than five groups is broken like any other bad number".
#[test]
fn scan_8_five_groups() {
    unsound(&[0x80, 0x80, 0x80, 0x80, 0x80, 0x01], 0);
    unsound(&[0, 0x81, 0x80, 0x80, 0x80, 0x80, 0x01], 1);
    unsound_code(&[1, 0xFF, 0xFF, 0xFF, 0xFF, 0xFF, 0x01], 8);
    unsound_code(&[1, 0xFF, 0xFF, 0xFF, 0xFF, 0x1F], 8);
    unsound_code(&[1, 0xFF, 0xFF, 0xFF, 0xFF, 0x0F], 14);
}
