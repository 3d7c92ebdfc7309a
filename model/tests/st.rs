//! Request A.4: the meaning of ST, and that the writer's ST does what the scan does.

mod common;

use common::landed_and_all;
use rolvenko_model::features::with;
use rolvenko_model::generate::{limit_texts, row_in_range, st_source, state_in_range, Names, Rng};
use rolvenko_model::st::{read, Evaluation, Operation, Sign, Statement, Unit};
use rolvenko_model::{plain_scan, read_text, write_structured_text, Features, Program};

const WAYS: [Evaluation; 2] = [Evaluation::Both, Evaluation::AsNeeded];

/// A unit with the DINT x and y.
fn unit(statements: &str) -> Option<Unit> {
    let sections = "VAR_INPUT i : DINT := 0; END_VAR VAR x : DINT := 0; y : DINT := 0; END_VAR ";
    read(format!("{sections}{statements}").as_bytes())
}

/// x after a run that starts with i = 7, x = -7 and y = 2.
fn after(statements: &str, way: Evaluation) -> Option<i32> {
    let unit = unit(statements).unwrap_or_else(|| panic!("{statements}"));
    unit.run(&[7, -7, 2], way).map(|values| values[1])
}

fn value(expression: &str) -> Option<i32> {
    let [both, needed] = WAYS.map(|way| after(&format!("x := {expression};"), way));
    assert_eq!(both, needed);
    both
}

fn holds(condition: &str, way: Evaluation) -> Option<bool> {
    let x = after(&format!("x := 0; IF {condition} THEN x := 1; END_IF;"), way);
    x.map(|x| x == 1)
}

#[test]
fn arithmetic() {
    for (expression, wanted) in [
        ("x / y", Some(-3)),
        ("x MOD y", Some(-1)),
        ("i MOD -y", Some(1)),
        ("x MOD 0", Some(0)),
        ("x / 0", None),
        ("x / (y - 2)", None),
        ("(-2147483647 - 1) / -1", None),
        ("(-2147483647 - 1) MOD -1", Some(0)),
        ("2147483647 + 1", None),
        ("-2147483647 - 1", Some(i32::MIN)),
        ("-2147483647 - 2", None),
        ("-(-2147483647 - 1)", None),
        ("65536 * 32768", None),
        ("-65536 * 32768", Some(i32::MIN)),
        ("2147483648", None),
        ("0 * (1 / 0)", None),
        ("007", Some(7)),
    ] {
        assert_eq!(value(expression), wanted, "{expression}");
    }
}

/// NOT and minus bind closest, then products, sums, order, equality, AND, OR; one
/// precedence goes from left to right.
#[test]
fn precedence() {
    for (plain, bracketed) in [
        ("1 - 2 - 3 * 4 * 5", "((1 - 2) - ((3 * 4) * 5))"),
        ("-y * x MOD 4 / 3", "((((-y) * x) MOD 4) / 3)"),
        ("x / y * y", "((x / y) * y)"),
        ("7 MOD 4 * 2", "((7 MOD 4) * 2)"),
    ] {
        let [left, right] = [plain, bracketed].map(|e| unit(&format!("x := {e};")));
        assert_eq!(left.expect("read"), right.expect("read"), "{plain}");
    }
    for (plain, bracketed) in [
        (
            "x = 1 OR y = 1 AND i = 1",
            "((x = 1) OR ((y = 1) AND (i = 1)))",
        ),
        ("NOT (x = 1) AND y < 1", "((NOT (x = 1)) AND (y < 1))"),
        (
            "x + 1 <= y * 2 OR x <> 1 OR i >= 1",
            "((((x + 1) <= (y * 2)) OR (x <> 1)) OR (i >= 1))",
        ),
    ] {
        let [left, right] = [plain, bracketed].map(|c| unit(&format!("IF {c} THEN END_IF;")));
        assert_eq!(left.expect("read"), right.expect("read"), "{plain}");
    }
}

/// "IF takes the first true branch" and works out no later condition.
#[test]
fn branches() {
    let three = "IF x > 0 THEN x := 1; ELSIF y = 2 THEN x := 2; y := 9; ELSIF 1 / 0 = 1 THEN \
        x := 3; END_IF;";
    for way in WAYS {
        assert_eq!(after(three, way), Some(2));
        assert_eq!(after(&three.replace("y = 2", "y = 3"), way), None);
        assert_eq!(after(&three.replace("1 / 0", "1 / 2"), way), Some(2));
        assert_eq!(after("IF x > 0 THEN x := 1; END_IF;", way), Some(-7));
        // A branch that is not taken need have no value.
        assert_eq!(after("IF x > 0 THEN x := 1 / 0; END_IF;", way), Some(-7));
        assert_eq!(after("x := y; y := x; x := x + y;", way), Some(4));
    }
}

/// AND and OR in both ways of the standard.
#[test]
fn ways_of_evaluation() {
    for (condition, needed) in [
        ("x = 1 AND 1 / 0 = 1", Some(false)),
        ("y = 2 OR 1 / 0 = 1", Some(true)),
        ("y = 2 AND 1 / 0 = 1", None),
        ("1 / 0 = 1 AND x = 1", None),
        ("NOT (y = 2 OR 1 / 0 = 1)", Some(false)),
    ] {
        assert_eq!(
            holds(condition, Evaluation::AsNeeded),
            needed,
            "{condition}"
        );
        assert_eq!(holds(condition, Evaluation::Both), None, "{condition}");
    }
    for way in WAYS {
        assert_eq!(holds("NOT (x = 1) AND (y = 2 OR i = 0)", way), Some(true));
    }
}

/// Statements that the reader takes for none.
const NO_STATEMENTS: [&str; 26] = [
    "x := 1",
    "x = 1;",
    "x := ;",
    "x := 1 2;",
    "z := 1;",
    "x := z;",
    "i := 1;",
    "x := y = 2;",
    "x := (y;",
    "x := y);",
    "x := - - y;",
    "x := NOT y;",
    "x := y AND i;",
    "x := 1 + (y = 2);",
    "IF y THEN x := 1; END_IF;",
    "IF y = 2 THEN x := 1; END_IF",
    "IF y = 2 x := 1; END_IF;",
    "IF y = 2 THEN x := 1; ELSIF x := 2; END_IF;",
    "IF (y = 2) = (x = 2) THEN x := 1; END_IF;",
    "IF NOT NOT (y = 2) THEN x := 1; END_IF;",
    "END_IF;",
    "x := 99999999999999999999;",
    "x := y__y;",
    "x := y & 1;",
    "IF := 1;",
    "x : = 1;",
];

#[test]
fn what_is_no_unit() {
    for statements in NO_STATEMENTS {
        assert_eq!(unit(statements), None, "{statements}");
    }
    for whole in [
        "VAR x : DINT := 0; X : DINT := 0; END_VAR",
        "VAR_INPUT x : DINT := 0; END_VAR VAR x : DINT := 0; END_VAR",
        "VAR x : DINT := 2147483648; END_VAR",
        "VAR x : DINT; END_VAR",
        "VAR if : DINT := 0; END_VAR",
        "VAR x : DINT := 0; ",
        "VAR END_VAR VAR_INPUT END_VAR",
    ] {
        assert_eq!(read(whole.as_bytes()), None, "{whole}");
    }
    assert!(read(b"var X : dInt := -2147483648; end_Var\tX:=x;\r\n").is_some());
    assert!(read(b"").is_some());
}

/// identifier ::= (letter | ('_' (letter | digit))) {['_'] (letter | digit)}, as the list of
/// words that it makes of one letter and one digit, up to six bytes.
#[test]
fn identifiers() {
    let mut made: Vec<String> = ["a", "_a", "_1"].map(str::to_owned).to_vec();
    let mut from = 0;
    while from < made.len() {
        let longer = ["a", "1", "_a", "_1"].map(|part| format!("{}{part}", made[from]));
        made.extend(longer.into_iter().filter(|word| word.len() <= 6));
        from += 1;
    }
    let mut words = vec![String::new()];
    for _ in 0..6 {
        let longer = |word: &String| ["", "a", "1", "_"].map(|part| format!("{word}{part}"));
        words = words.iter().flat_map(longer).collect();
    }
    for word in words {
        let unit = read(format!("VAR {word} : DINT := 0; END_VAR").as_bytes());
        assert_eq!(unit.is_some(), made.contains(&word), "{word}");
    }
}

/// A unit printed again: each operation in round brackets and nothing else.
fn printed(unit: &Unit) -> String {
    let section = |word: &str, part: std::ops::Range<usize>| {
        let lines: String = unit.names[part]
            .iter()
            .map(|d| format!("  {} : DINT := {};\n", d.name, d.start))
            .collect();
        match lines.is_empty() {
            true => lines,
            false => format!("{word}\n{lines}END_VAR\n"),
        }
    };
    let mut text = section("VAR_INPUT", 0..unit.inputs);
    text += &section("VAR", unit.inputs..unit.names.len());
    for statement in &unit.statements {
        match statement {
            Statement::If(branches) => {
                for (index, branch) in branches.iter().enumerate() {
                    let word = if index == 0 { "IF" } else { "ELSIF" };
                    text += &format!("{word} {} THEN\n", operation(unit, &branch.condition));
                    for inner in &branch.statements {
                        text += &format!("  {}", assignment(unit, inner));
                    }
                }
                text += "END_IF;\n";
            }
            statement => text += &assignment(unit, statement),
        }
    }
    text
}

fn assignment(unit: &Unit, statement: &Statement) -> String {
    let Statement::Assign { name, value } = statement else {
        panic!("an IF in an IF");
    };
    format!(
        "{} := {};\n",
        unit.names[*name].name,
        operation(unit, value)
    )
}

fn operation(unit: &Unit, inner: &Operation) -> String {
    match inner {
        Operation::Number(number) => number.to_string(),
        Operation::Name(name) => unit.names[*name].name.clone(),
        Operation::Minus(inner) => format!("(-{})", operation(unit, inner)),
        Operation::Not(inner) => format!("(NOT {})", operation(unit, inner)),
        Operation::Two { sign, left, right } => {
            let (left, right) = (operation(unit, left), operation(unit, right));
            format!("({left} {} {right})", spelled(*sign))
        }
    }
}

fn spelled(sign: Sign) -> &'static str {
    match sign {
        Sign::Or => "OR",
        Sign::And => "AND",
        Sign::Equal => "=",
        Sign::Unequal => "<>",
        Sign::Less => "<",
        Sign::LessEqual => "<=",
        Sign::Greater => ">",
        Sign::GreaterEqual => ">=",
        Sign::Add => "+",
        Sign::Subtract => "-",
        Sign::Multiply => "*",
        Sign::Divide => "/",
        Sign::Mod => "MOD",
    }
}

/// The places of the names and of their previous values in a unit that was written for a
/// program, and its starts.
fn places(unit: &Unit, program: &Program) -> [Vec<usize>; 2] {
    assert_eq!(unit.inputs, program.inputs);
    assert_eq!(unit.names.len(), 2 * program.names.len());
    let place = |mark: &str| {
        let list = program.names.iter().map(|name| {
            let spelling = std::str::from_utf8(name.spelling).expect("ASCII");
            let place = unit.find(&format!("{mark}{spelling}")).expect("declared");
            assert_eq!(unit.names[place].start, name.start);
            place
        });
        list.collect()
    };
    [place(""), place("_")]
}

/// "started with the scan's state in names and previous values alike, then given an
/// accepted row's inputs, they leave the same values as the scan". Answers whether the row
/// is accepted.
fn one_row(unit: &Unit, program: &Program, state: &[i32], row: &[i32]) -> bool {
    let mut wanted = state.to_vec();
    if plain_scan(program, &mut wanted, row).is_err() {
        return false;
    }
    let places = places(unit, program);
    let mut values = vec![0; unit.names.len()];
    for place in &places {
        place
            .iter()
            .zip(state)
            .for_each(|(&at, &value)| values[at] = value);
    }
    let inputs = places[0].iter().zip(row);
    inputs.for_each(|(&at, &value)| values[at] = value);
    for way in WAYS {
        let left = unit.run(&values, way).expect("a value");
        for place in &places {
            let found: Vec<i32> = place.iter().map(|&at| left[at]).collect();
            assert_eq!(found, wanted, "{}", printed(unit));
        }
    }
    true
}

/// The writer's ST reads as a unit, whose print is that ST, and does what the scan does.
#[test]
fn as_the_scan() {
    landed_and_all(as_the_scan_in_force);
}

fn as_the_scan_in_force() {
    let (mut accepted, mut changed) = (0, 0);
    for seed in 0..1500 {
        let mut rng = Rng::new(99_000_000 + seed);
        let text = st_source(&mut rng, Names::Readable);
        let program = read_text(&text).expect("an accepted text");
        let written = write_structured_text(&program);
        let unit = read(written.as_bytes()).unwrap_or_else(|| panic!("{written}"));
        assert_eq!(printed(&unit), written);
        let ranges = program.ranges();
        for _ in 0..10 {
            let state = state_in_range(&mut rng, &ranges);
            let row = row_in_range(&mut rng, &ranges[..program.inputs]);
            if one_row(&unit, &program, &state, &row) {
                accepted += 1;
                let mut left = state.clone();
                plain_scan(&program, &mut left, &row).expect("accepted");
                changed += usize::from(left[row.len()..] != state[row.len()..]);
            }
        }
    }
    assert!(accepted > 5000 && changed > 2000, "{accepted} {changed}");
}

/// The standard takes names in two letter cases as one, and so the ST of a text that
/// request A.2 refuses is no unit.
#[test]
fn letter_case() {
    for text in [
        "input v 0..1; input V 0..1;",
        "input Var 0..1;",
        "input MOD 0..1;",
    ] {
        with(Features::NONE, || {
            let program = read_text(text.as_bytes()).expect("accepted without A.2");
            assert_eq!(read(write_structured_text(&program).as_bytes()), None);
        });
    }
}

/// The cases of the folder, rows in turn from the start.
#[test]
fn cases_with_random_rows() {
    let folder = concat!(env!("CARGO_MANIFEST_DIR"), "/../rulebooks");
    let mut accepted = 0;
    for name in [
        "latch",
        "lock",
        "plc_square",
        "conveyor_count",
        "ton_discrete",
    ] {
        let text = std::fs::read(format!("{folder}/{name}.txt")).expect("case");
        let program = read_text(&text).expect("an accepted text");
        let written = write_structured_text(&program);
        let unit = read(written.as_bytes()).expect("a unit");
        assert_eq!(printed(&unit), written);
        let mut state = program.starts();
        let mut rng = Rng::new(1);
        for _ in 0..200 {
            let row = row_in_range(&mut rng, &program.ranges()[..program.inputs]);
            accepted += usize::from(one_row(&unit, &program, &state, &row));
            let _ = plain_scan(&program, &mut state, &row);
        }
    }
    assert!(accepted > 500, "{accepted}");
}

/// The longest texts: brackets as deep as a text is long need a large stack.
#[test]
fn at_the_limits() {
    let check = || {
        for limit in limit_texts().iter().filter(|limit| limit.refusal.is_none()) {
            let program = read_text(&limit.text).expect("an accepted text");
            let written = write_structured_text(&program);
            let unit = read(written.as_bytes()).unwrap_or_else(|| panic!("{}", limit.label));
            assert_eq!(printed(&unit), written, "{}", limit.label);
        }
    };
    let large = std::thread::Builder::new().stack_size(1 << 28);
    let thread = large.spawn(check).expect("a thread");
    thread.join().expect("no difference");
}
