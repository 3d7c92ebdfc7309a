//! Texts at every limit of document 01 and one past it.

use super::expected;
use crate::{features, Refusal, BRACKETS, CASES, NAMES, NAME_BYTES, TEXT_LIMIT, WATCHES};

/// A text with the answer expected from the translator (None: accepted).
#[derive(Clone, Debug)]
pub struct LimitText {
    pub label: String,
    pub text: Vec<u8>,
    pub refusal: Option<Refusal>,
}

/// All texts at the limits.
pub fn limit_texts() -> Vec<LimitText> {
    let mut list = Vec::new();
    lengths(&mut list);
    names(&mut list);
    cases(&mut list);
    brackets(&mut list);
    bounds(&mut list);
    constants(&mut list);
    if features::in_force().timers {
        timers(&mut list);
    }
    if features::in_force().watches {
        watches(&mut list);
    }
    list
}

/// "at most 16" watches; 16 brackets in each of their conditions.
fn watches(list: &mut Vec<LimitText>) {
    for count in [WATCHES, WATCHES + 1] {
        let mut text = "var v 0..1; v: GX(v = (1)); ".to_owned();
        for index in 0..count {
            let mark = if index == WATCHES { "@" } else { "" };
            text += &format!("{mark}watch: G([v < {index}]); ");
        }
        add(list, format!("{count} watches"), 30, &text);
    }
    for depth in [BRACKETS, BRACKETS + 1] {
        let mark = if depth > BRACKETS { "@" } else { "" };
        let (inner, all) = (
            nested_condition(4, depth - 4, mark),
            nested_condition(4, 12, ""),
        );
        let first = format!("watch: G([{inner}] -> X([{all}]));");
        add(list, format!("{depth} brackets in a watch"), 8, &first);
        let second = format!("watch: G([{all}] -> X([{inner}])); watch: G([{all}]);");
        add(list, format!("{depth} brackets after X"), 8, &second);
    }
}

/// "N from 1 to 2,147,483,647 milliseconds"; t is "counted among the 64".
fn timers(list: &mut Vec<LimitText>) {
    for (number, limit) in [
        (0, "1"),
        (0, "2147483647"),
        (0, "0002147483647"),
        (3, "@0"),
        (3, "@2147483648"),
        (3, "@4294967297"),
    ] {
        let text = format!("var w 0..1; timer t of w limit {limit}; w: GX(w = (1));");
        add(list, format!("timer limit {limit}"), number, &text);
    }
    for count in [NAMES, NAMES + 1] {
        for inputs in [0, 1, NAMES - 2] {
            let mut text: String = (0..inputs).map(|id| format!("input i{id} 0..1;")).collect();
            text += "var w 0..1;";
            for id in inputs + 1..count {
                let mark = if id == NAMES { "@" } else { "" };
                text += &format!("timer {mark}t{id} of w limit {};", 1 + id % 3);
            }
            text += "w: GX(w = (1));";
            add(
                list,
                format!("{count} names, {inputs} inputs, timers"),
                8,
                &text,
            );
        }
    }
}

/// Adds a text whose mark `@` is the place of the refusal `number`.
fn add(list: &mut Vec<LimitText>, label: String, number: u8, marked: &str) {
    let (text, refusal) = expected(number, marked);
    list.push(LimitText {
        label,
        text,
        refusal,
    });
}

/// "At most 32,768 bytes."
fn lengths(list: &mut Vec<LimitText>) {
    let contents = [
        String::new(),
        "var v 0..1; v: GX(v = (1));".to_string(),
        format!("var v 0..9; v: GX(v = (1{}));", "+1-1".repeat(8_000)),
        format!("var v 0..9; v: GX(v = (1{}));", "*1".repeat(16_000)),
        longest_list(),
    ];
    for content in contents {
        for length in [TEXT_LIMIT, TEXT_LIMIT + 1] {
            let mut text = content.clone().into_bytes();
            text.resize(length, b' ');
            let refusal = (length > TEXT_LIMIT).then_some(Refusal::new(9, 0));
            let label = format!("{length} bytes");
            list.push(LimitText {
                label,
                text,
                refusal,
            });
        }
    }
    // 9 comes "before all else".
    list.push(LimitText {
        label: "bad byte in a text over the limit".to_string(),
        text: vec![b'$'; TEXT_LIMIT + 1],
        refusal: Some(Refusal::new(9, 0)),
    });
}

/// A rule with one long condition, twice in the text.
fn longest_list() -> String {
    let condition = format!("[_v<1{}]", "|_v<1".repeat(3_200));
    pair("v", &[(&condition, "1")])
}

/// `var v 0..1;` and a pair of formulas with these cases (condition with its
/// brackets, expression).
fn pair(v: &str, cases: &[(&str, &str)]) -> String {
    let change: Vec<String> = cases
        .iter()
        .map(|(condition, value)| format!("{condition} & {v} = ({value})"))
        .collect();
    let list: Vec<&str> = cases.iter().map(|(condition, _)| *condition).collect();
    format!(
        "var {v} 0..1; {v}: GX(~({v} = _{v}) -> {}); {v}: GX({v} = _{v} -> ~({}));",
        change.join(" | "),
        list.join(" | ")
    )
}

/// "At most 64 names in all"; "1 to 16 bytes".
fn names(list: &mut Vec<LimitText>) {
    for inputs in [0, 1, 32, NAMES] {
        for count in [NAMES, NAMES + 1] {
            let mut text = String::new();
            for id in 0..count {
                let word = if id < inputs { "input" } else { "var" };
                let mark = if id == NAMES { "@" } else { "" };
                text += &format!("{word} {mark}n{id} 0..1;\n");
            }
            for id in inputs..count.min(NAMES) {
                text += &format!("n{id}: GX(n{id} = (0));\n");
            }
            add(list, format!("{count} names, {inputs} inputs"), 8, &text);
        }
    }
    let long = "n".repeat(NAME_BYTES);
    add(
        list,
        "16-byte name".into(),
        8,
        &pair(&long, &[("[1 = 2]", "0")]),
    );
    let used = format!("input {long} 0..1; var v 0..1; v: GX(v = ({long}*_{long}));");
    add(list, "16-byte name used".into(), 8, &used);
    let over = "n".repeat(NAME_BYTES + 1);
    for (label, text) in [
        ("input", format!("input @{over} 0..1;")),
        ("variable", format!("var @{over} 0..1;")),
        ("rule", format!("var v 0..1; @{over}: GX({over} = (0));")),
        ("value", format!("var v 0..1; v: GX(v = (@{over}));")),
        ("previous", format!("var v 0..1; v: GX(v = (@_{over}));")),
    ] {
        add(list, format!("17-byte name, {label}"), 8, &text);
    }
}

/// "1 to 32 cases".
fn cases(list: &mut Vec<LimitText>) {
    let conditions: Vec<String> = (0..CASES + 1).map(|k| format!("[_v = {k}]")).collect();
    let all: Vec<(&str, &str)> = conditions.iter().map(|c| (c.as_str(), "1")).collect();
    add(list, "32 cases".into(), 8, &pair("v", &all[..CASES]));
    let over = pair("v", &all).replacen("[_v = 32]", "@[_v = 32]", 1);
    add(list, "33 cases".into(), 8, &over);
    // In the no-change list `)` is wanted where the `|` before the 33rd case stands.
    let accepted = pair("v", &all[..CASES]);
    let (head, tail) = accepted.split_at(accepted.len() - "));".len());
    let extended = format!("{head} @| [_v = 32]{tail}");
    add(list, "33 conditions".into(), 7, &extended);
    if features::in_force().pairs {
        for (up, down) in [
            (31, 1),
            (16, 16),
            (1, 31),
            (33, 1),
            (32, 1),
            (31, 2),
            (1, 32),
        ] {
            let label = format!("{up} rising and {down} falling cases");
            add(list, label, 8, &rising_and_falling(up, down));
        }
    }
}

/// A pair with so many cases, the 33rd marked.
fn rising_and_falling(up: usize, down: usize) -> String {
    let cases = |from: usize, count: usize| {
        let list: Vec<String> = (from..from + count)
            .map(|index| if index == CASES { "@" } else { "" })
            .map(|mark| format!("{mark}[_v = 0] & v = (1)"))
            .collect();
        list.join(" | ")
    };
    let (rising, falling) = (cases(0, up), cases(up, down));
    format!("var v 0..1; v+: GX(v > _v -> {rising}); v-: GX(v < _v -> {falling});")
}

/// `depth` counted round brackets, with `mark` before the last one.
pub fn nested_expression(depth: usize, mark: &str) -> String {
    let open = "(".repeat(depth.saturating_sub(1));
    let last = if depth > 0 {
        format!("{mark}(")
    } else {
        String::new()
    };
    format!("{open}{last}1{}", ")".repeat(depth))
}

/// `square` counted square brackets around a comparison with `round` round ones, with
/// `mark` before the last bracket.
pub fn nested_condition(square: usize, round: usize, mark: &str) -> String {
    let mut text = String::new();
    for index in 0..square {
        let last = index + 1 == square && round == 0;
        let not = if index % 2 == 1 { "~" } else { "" };
        text += not;
        text += if last { mark } else { "" };
        text += "[";
    }
    let inner = nested_expression(round, mark);
    text + "1 < " + &inner + &"]".repeat(square)
}

/// "16 open brackets of both kinds together".
fn brackets(list: &mut Vec<LimitText>) {
    for depth in [BRACKETS, BRACKETS + 1] {
        let mark = if depth > BRACKETS { "@" } else { "" };
        let inner = nested_expression(depth, mark);
        let function = format!("var v 0..1; v: GX(v = ({inner}));");
        add(list, format!("{depth} round"), 8, &function);
        let case = pair("v", &[("[1 = 1]", &inner)]);
        add(list, format!("{depth} round in a case"), 8, &case);
        for square in [0, 1, 8, 15, 16, depth] {
            let condition = nested_condition(square, depth - square, mark);
            let bracketed = format!("[{condition}]");
            let text = pair("v", &[(&bracketed, "1")]);
            // The first mark is in the change formula.
            let text = match text.rfind('@') {
                Some(second) => format!("{}{}", &text[..second], &text[second + 1..]),
                None => text,
            };
            add(list, format!("{depth} with {square} square"), 8, &text);
        }
    }
    // The deepest use of the stack that a text can ask for: 38 values.
    let factor = "1+1*(".repeat(8) + "1+1*1" + &")".repeat(8);
    let left = "1=1|1=1&";
    let open = format!("[{left}").repeat(9);
    let condition = format!("{open}1<{factor}{}", "]".repeat(9));
    let deepest = pair("v", &[(&condition, "1")]);
    add(list, "deepest stack".into(), 8, &deepest);
    let sides = nested_expression(BRACKETS, "");
    let text = format!("var v 0..9; v: GX(v = ({sides}+{sides}*(1)));");
    add(list, "closed brackets are not counted".into(), 8, &text);
}

/// Bounds and start "lie in -2,147,483,648..2,147,483,647".
fn bounds(list: &mut Vec<LimitText>) {
    let rule = " v: GX(v = (0));";
    for (number, declaration) in [
        (0, "var v -2147483648..2147483647;"),
        (0, "var v -2147483648..2147483647 init -2147483648;"),
        (0, "var v -2147483648..2147483647 init 2147483647;"),
        (0, "var v 0000000000000000000000000000..-0 init -0;"),
        (3, "var v -@2147483649..0;"),
        (3, "var v @2147483648..2147483648;"),
        (3, "var v 0..@2147483648;"),
        (3, "var v -1..-@2147483649;"),
        (3, "var v 0..1 init @2147483648;"),
        (3, "var v 0..1 init -@2147483649;"),
        (3, "var v 0..@99999999999999999999999999999999999999;"),
        (3, "var v 1..@0;"),
        (3, "var v 0..1 init @2;"),
        (3, "var v 0..1 init -@1;"),
        (3, "var v 1..2@;"),
        (3, "var v -2..-1@;"),
    ] {
        let text = declaration.to_string() + rule;
        add(list, declaration.to_string(), number, &text);
    }
}

/// "a number up to 2,147,483,647"
fn constants(list: &mut Vec<LimitText>) {
    for (number, value) in [
        (0, "2147483647"),
        (0, "-2147483647"),
        (0, "0002147483647"),
        (3, "@2147483648"),
        (3, "-@2147483648"),
        (3, "1 + @4294967296"),
        (3, "@18446744073709551616"),
    ] {
        let function = format!("var v 0..1; v: GX(v = ({value}));");
        add(list, format!("function of {value}"), number, &function);
    }
}
