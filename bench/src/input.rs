//! Inputs: rule texts of the papers with their rows, and generated ones of growing size.

use rolvenko_model::generate::Rng;
use rolvenko_model::{instructions, read_text, write_image, Program};

/// A rule text with its image and rows, each of which is accepted.
pub struct Input {
    pub name: String,
    pub text: Vec<u8>,
    pub image: Vec<u8>,
    pub instructions: usize,
    pub starts: Vec<i32>,
    pub rows: Vec<Vec<i32>>,
    pub generated: bool,
}

impl Input {
    fn new(name: &str, text: Vec<u8>, rows: Vec<Vec<i32>>, generated: bool) -> Input {
        let program = read_text(&text).expect("an accepted text");
        let image = write_image(&program);
        Input {
            name: name.to_owned(),
            instructions: instructions(&image),
            starts: program.starts(),
            rows,
            generated,
            text,
            image,
        }
    }

    pub fn program(&self) -> Program<'_> {
        read_text(&self.text).expect("an accepted text")
    }
}

/// How the n-th input (`i`) or variable (`v`) is named.
type Naming = fn(char, usize) -> String;

/// How the rules of a generated text are written.
#[derive(Clone, Copy)]
enum Form {
    /// A change formula and its no-change formula.
    Change,
    /// A rising and a falling formula (A.6).
    Pair,
}

/// The papers' latch, lock and square, and generated texts of about 1 to 32 KiB; the largest once more with 64 names of 16 bytes that differ
/// at their end only, the slowest to find; and one of rising and falling formulas.
pub fn inputs() -> Vec<Input> {
    let mut list: Vec<Input> = ["latch", "lock", "plc_square"].map(case).into();
    for kib in [1, 2, 4, 8, 16, 32] {
        let text = generated(1024 * kib, |letter, n| format!("{letter}{n}"), Form::Change);
        list.push(Input::new(&format!("generated {kib}K"), text, rows_of(kib as u64), true));
    }
    let text = generated(1024 * 32, |letter, n| format!("name{letter}of16bytes{n:02}"), Form::Change);
    list.push(Input::new("long names", text, rows_of(32), false));
    let text = generated(1024 * 8, |letter, n| format!("{letter}{n}"), Form::Pair);
    list.push(Input::new("pairs 8K", text, rows_of(8), false));
    list
}

/// The papers' lock with its timer, and those of its rows that are accepted.
pub fn timed() -> Input {
    let mut input = case("lock_timer");
    let mut state = input.starts.clone();
    input.rows.retain(|row| rolvenko_model::scan(&input.image, &mut state, row).is_ok());
    input
}

/// Rows of a generated text.
fn rows_of(seed: u64) -> Vec<Vec<i32>> {
    let mut rng = Rng::new(seed);
    (0..16).map(|_| [32, 10, 10, 10].map(|count| rng.below(count) as i32).into()).collect()
}

/// A rule text of the papers with the rows of its trace.
fn case(name: &str) -> Input {
    let path = format!("{}/../rulebooks/{name}.in", env!("CARGO_MANIFEST_DIR"));
    let whole = std::fs::read_to_string(&path).unwrap_or_else(|e| panic!("{path}: {e}"));
    let (text, rows) = whole.split_once("\n#\n").expect("a line #");
    let row = |line: &str| line.split_terminator(' ').map(|field| field.parse().expect("a number")).collect();
    Input::new(name, format!("{text}\n").into_bytes(), rows.lines().map(row).collect(), false)
}

/// A text of at most `size` bytes, near it: 4 inputs and up to 60 variables, whose rules have as many cases as fit.
fn generated(size: usize, name: Naming, form: Form) -> Vec<u8> {
    let (mut fits, mut over) = (1, 60 * 32);
    while over - fits > 1 {
        let count = (fits + over) / 2;
        if rules(count, name, form).len() <= size {
            fits = count;
        } else {
            over = count;
        }
    }
    rules(fits, name, form)
}

/// `count` cases over as many variables as they need, at most 60 (and 32 cases each).
fn rules(count: usize, name: Naming, form: Form) -> Vec<u8> {
    let mut rng = Rng::new(7);
    let variables = count.clamp(1, 60);
    let mut text = String::new();
    text += &format!("input {} 0..31;\n", name('i', 0));
    for i in 1..4 {
        text += &format!("input {} 0..9;\n", name('i', i));
    }
    for v in 0..variables {
        text += &format!("var {} -1000..1000;\n", name('v', v));
    }
    for v in 0..variables {
        let cases = (count / variables + usize::from(v < count % variables)).clamp(1, 32);
        text += &match form {
            Form::Change => change(&mut rng, v, cases, name),
            Form::Pair => pair(&mut rng, v, cases, name),
        };
    }
    text.into_bytes()
}

/// Cases as they stand in a list.
fn listed(own: &str, list: &[(String, String)]) -> String {
    let cases: Vec<String> = list.iter().map(|(c, e)| format!("[{c}] & {own} = ({e})")).collect();
    cases.join(" | ")
}

fn change(rng: &mut Rng, v: usize, cases: usize, name: Naming) -> String {
    let own = name('v', v);
    let list: Vec<(String, String)> = (0..cases).map(|k| case_of(rng, v, k, name)).collect();
    let conditions: Vec<String> = list.iter().map(|(c, _)| format!("[{c}]")).collect();
    let both = listed(&own, &list);
    format!("{own}: GX(~({own} = _{own}) -> {both});\n{own}: GX({own} = _{own} -> ~({}));\n", conditions.join(" | "))
}

/// As many cases, half of them rising, at least one of each.
fn pair(rng: &mut Rng, v: usize, cases: usize, name: Naming) -> String {
    let own = name('v', v);
    let (ups, downs) = (cases.div_ceil(2), (cases / 2).max(1));
    let up: Vec<(String, String)> = (0..ups).map(|k| turned_case(rng, v, k, ('<', '+'), name)).collect();
    let down: Vec<(String, String)> = (ups..ups + downs).map(|k| turned_case(rng, v, k, ('>', '-'), name)).collect();
    let (up, down) = (listed(&own, &up), listed(&own, &down));
    format!("{own}+: GX({own} > _{own} -> {up});\n{own}-: GX({own} < _{own} -> {down});\n")
}

/// A rising or a falling case: the value moves by 1 or more, as far as 500 or -500 and a step.
fn turned_case(rng: &mut Rng, v: usize, k: usize, (sign, operator): (char, char), name: Naming) -> (String, String) {
    let (own, first) = (name('v', v), name('i', 0));
    let other = if v == 0 { first.clone() } else { name('v', rng.below(v)) };
    let limit = if sign == '<' { "500" } else { "-500" };
    let condition = format!("{first} = {k} & _{own} {sign} {limit}");
    let value = format!("_{own} {operator} ({other} mod 7 + {})", 7 + rng.below(50));
    (condition, value)
}

/// The condition and the value of one case. At most one condition of a variable holds: they test one input for different values.
fn case_of(rng: &mut Rng, v: usize, k: usize, name: Naming) -> (String, String) {
    let (own, first, input) = (name('v', v), name('i', 0), name('i', rng.below(4)));
    let other = if v == 0 { first.clone() } else { name('v', rng.below(v)) };
    let condition = format!("{first} = {k} & ({other} + {input} * 2) <= 500");
    let value = format!("(_{own} + {other} mod 7 + {}) mod 900 + {}", 1 + rng.below(50), 1 + rng.below(9));
    (condition, value)
}
