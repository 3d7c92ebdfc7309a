//! A refused row in words: which name and which values, and for 15 the two cases that held.

use crate::farm::Farm;
use crate::image::{Instruction, TIMER};
use crate::text::{cases, count, line_column, one_line};
use rolvenko::{meaning, scan, ScanRefusal};

const PREVIOUS: u8 = 3;
const GATE: u8 = 19;
/// 20, and rising and falling
const PICKS: [u8; 3] = [20, 24, 25];
const LET: u8 = 21;
const SETTLE: u8 = 22;

/// What was wrong with a row, of a farm whose state is as before it.
pub fn row_refused(farm: &Farm, row: Result<&[i32], &String>, refusal: ScanRefusal) -> String {
    let what = match (refusal.number, row) {
        (12, Err(why)) => format!("the line is no row: {why}; {}", inputs_wanted(farm)),
        (12, Ok(row)) => format!("the row has {}; {}", count(row.len(), "number"), inputs_wanted(farm)),
        (13, Ok(row)) => outside(farm, &row[..farm.read.inputs], row.get(farm.read.inputs)),
        (18, _) => outside(farm, farm.values(), None),
        (14..=17 | 22, Ok(row)) => at_work(farm, row, refusal),
        _ => meaning(refusal.number).to_owned(),
    };
    format!("refused {}: {what}", refusal.number)
}

fn inputs_wanted(farm: &Farm) -> String {
    let (inputs, numbers) = (farm.read.inputs, farm.read.row_len());
    let words: Vec<&str> = farm.names[..inputs].iter().map(String::as_str).chain(Some("milliseconds").filter(|_| numbers > inputs)).collect();
    match numbers {
        0 => "a row of no numbers is wanted".to_owned(),
        n => format!("{} wanted, {}", count(n, "number"), words.join(" ")),
    }
}

/// Which values are outside the ranges of their names, and milliseconds below 0.
fn outside(farm: &Farm, values: &[i32], milliseconds: Option<&i32>) -> String {
    let told = |(id, value): (usize, &i32)| {
        let range = farm.range(id);
        let within = (range.low..=range.high).contains(value);
        (!within).then(|| format!("{} is {value}, outside {}..{}", farm.names[id], range.low, range.high))
    };
    let negative = milliseconds.filter(|m| **m < 0).map(|m| format!("the milliseconds are {m}, below 0"));
    values.iter().enumerate().filter_map(told).chain(negative).collect::<Vec<_>>().join("; ")
}

/// The instructions of the rule that the refusing one belongs to.
fn rule_of(code: &[Instruction], index: usize) -> std::ops::Range<usize> {
    let ends = |i: &Instruction| matches!(i.code, LET | SETTLE);
    // timers stand behind the rule of their variable
    let first = code[..index].iter().rposition(|i| ends(i) || i.code == TIMER).map_or(0, |i| i + 1);
    let last = code[index..].iter().position(ends).map_or(code.len(), |i| index + i + 1);
    first..last
}

/// 14 to 17: the variable whose rule was worked out, its case, and the values that the rule uses.
fn at_work(farm: &Farm, row: &[i32], refusal: ScanRefusal) -> String {
    let code = &farm.read.code;
    let index = (refusal.steps as usize).saturating_sub(1).min(code.len().saturating_sub(1));
    let Some(variable) = farm.read.variable_at(index) else {
        return meaning(refusal.number).to_owned();
    };
    let rule = rule_of(code, index);
    let case = code[rule.start..index].iter().filter(|i| PICKS.contains(&i.code)).count();
    let name = &farm.names[variable];
    let places = cases(&farm.text, name);
    let spelled = |n: usize| {
        places.get(n).map_or(format!("case {}", n + 1), |t| {
            let (line, _) = line_column(&farm.text, t.at);
            format!("case {} (line {line}) {}", n + 1, one_line(t.of(&farm.text)))
        })
    };
    let of_function = !code[rule.clone()].iter().any(|i| i.code == GATE);
    let what = match refusal.number {
        15 => {
            let first = (0..case).find(|n| holds(farm, row, &rule, *n));
            let both = first.into_iter().chain([case]).map(spelled).collect::<Vec<_>>();
            format!("two cases of {name} hold: {}", both.join(" and "))
        }
        number if of_function => format!("{name}: {}", meaning(number)),
        number => format!("{name}: {}, in {}", meaning(number), spelled(case)),
    };
    let values = values_used(farm, row, &code[rule]);
    if values.is_empty() { what } else { format!("{what}; {values}") }
}

/// Previous values, and inputs, that a rule uses. Other current values are worked out in the same scan, so they are not known here.
fn values_used(farm: &Farm, row: &[i32], rule: &[Instruction]) -> String {
    let mut found: Vec<String> = Vec::new();
    for i in rule {
        let text = match (i.code, i.operand) {
            (2, Some(id)) if (id as usize) < farm.read.inputs => format!("{} is {}", farm.names[id as usize], row[id as usize]),
            (3, Some(id)) => format!("_{} is {}", farm.names[id as usize], farm.state[id as usize]),
            _ => continue,
        };
        if !found.contains(&text) {
            found.push(text);
        }
    }
    found.join(", ")
}

/// Whether case `n` of a rule holds: asked of the archive, by a scan of an image whose rule has that case alone, and in which the rules
/// behind it keep their variables.
fn holds(farm: &Farm, row: &[i32], rule: &std::ops::Range<usize>, n: usize) -> bool {
    let code = &farm.read.code;
    let picks: Vec<usize> = rule.clone().filter(|i| PICKS.contains(&code[*i].code)).collect();
    let first = if n == 0 { rule.start } else { picks[n - 1] + 1 };
    let settle = &code[rule.end - 1];
    let mut image = farm.image[..code[rule.start].at].to_vec();
    image.extend(&farm.image[code[first].at..code[picks[n] + 1].at]);
    let id = settle.operand.unwrap_or(0) as u8;
    image.extend([SETTLE, id]);
    for (n, later) in code.iter().enumerate().skip(rule.end) {
        let id = later.operand.unwrap_or(0) as u8;
        match later.code {
            LET | SETTLE => image.extend([PREVIOUS, id, LET, id]),
            TIMER => image.extend(&farm.image[later.at..code.get(n + 1).map_or(farm.image.len(), |next| next.at)]),
            _ => (),
        }
    }
    let before_gate = (first..picks[n]).take_while(|i| code[*i].code != GATE).count();
    let mut state = farm.state.clone();
    match scan(&image, &mut state, row) {
        Ok(_) => state[usize::from(id)] != farm.state[usize::from(id)],
        // refused behind the gate: the case held
        Err(refusal) => refusal.steps as usize > rule.start + before_gate + 1,
    }
}
