//! Random texts that the translator accepts.

use super::letter_case::{is_word, vary_names};
use super::pairs::pair_wanted;
use super::{delays, timers, Rng};
use crate::token::same_names;
use crate::TEXT_LIMIT;

/// Size and kind of random texts.
#[derive(Clone, Copy, Debug, PartialEq, Eq)]
pub struct Shape {
    /// At most so many inputs.
    pub inputs: usize,
    /// At most so many variables.
    pub variables: usize,
    /// At most so many timers (A.7).
    pub timers: usize,
    /// At most so many cases in a rule.
    pub cases: usize,
    /// Deepest counted brackets; at most 16.
    pub brackets: usize,
    /// Ranges and constants lie in -`reach`..`reach`; at most 2,147,483,647.
    pub reach: i64,
}

impl Shape {
    /// Few names with few values: all states can be tried.
    pub const TINY: Shape = Shape {
        inputs: 2,
        variables: 2,
        timers: 1,
        cases: 3,
        brackets: 2,
        reach: 2,
    };
    pub const SMALL: Shape = Shape {
        inputs: 3,
        variables: 4,
        timers: 2,
        cases: 4,
        brackets: 3,
        reach: 9,
    };
    /// Numbers up to the limits of 32 bits.
    pub const WIDE: Shape = Shape {
        inputs: 5,
        variables: 8,
        timers: 3,
        cases: 5,
        brackets: 16,
        reach: 2_147_483_647,
    };

    /// Up to 64 names.
    pub const MANY: Shape = Shape {
        inputs: 30,
        variables: 34,
        timers: 8,
        cases: 2,
        brackets: 1,
        reach: 99,
    };

    /// Up to 63 timers.
    pub const TIMED: Shape = Shape {
        inputs: 3,
        variables: 6,
        timers: 63,
        cases: 2,
        brackets: 1,
        reach: 99,
    };

    /// TINY, SMALL or WIDE; where texts have timers, now and then TIMED.
    pub fn any(rng: &mut Rng) -> Shape {
        if timers::in_texts() && rng.chance(4) {
            return Shape::TIMED;
        }
        *rng.choose(&[Shape::TINY, Shape::SMALL, Shape::WIDE])
    }
}

/// A random accepted text.
pub fn text(rng: &mut Rng, shape: Shape) -> Vec<u8> {
    loop {
        let tokens = text_tokens(rng, shape);
        let text = render(rng, &tokens);
        if text.len() <= TEXT_LIMIT {
            return text;
        }
    }
}

/// The tokens of a random accepted text.
pub fn text_tokens(rng: &mut Rng, shape: Shape) -> Vec<Vec<u8>> {
    let mut writer = Writer::new(rng, shape);
    writer.names_and_rules();
    writer.watches();
    let mut tokens = writer.tokens;
    vary_names(rng, &mut tokens);
    tokens
}

/// Joins tokens with random white space, none only where the tokens stay as they are.
pub fn render(rng: &mut Rng, tokens: &[Vec<u8>]) -> Vec<u8> {
    let style = rng.below(3);
    let mut text = Vec::new();
    let mut last: &[u8] = b"";
    for token in tokens {
        let merges = merge(last, token);
        match style {
            0 if !merges => {}
            0 | 1 => text.push(b' '),
            _ => white_space(rng, merges, &mut text),
        }
        text.extend_from_slice(token);
        last = token;
    }
    if rng.chance(50) {
        white_space(rng, false, &mut text);
    }
    text
}

/// Whether two tokens side by side could be read as other tokens.
fn merge(left: &[u8], right: &[u8]) -> bool {
    let (Some(&a), Some(&b)) = (left.last(), right.first()) else {
        return false;
    };
    let alphanumeric = a.is_ascii_alphanumeric() && b.is_ascii_alphanumeric();
    let digits_end = left[0].is_ascii_digit() && b.is_ascii_alphabetic();
    let pair = matches!(&[a, b], b".." | b"->" | b"<=" | b">=" | b"<>");
    alphanumeric && !digits_end || pair || a == b'_'
}

fn white_space(rng: &mut Rng, needed: bool, text: &mut Vec<u8>) {
    let count = rng.below(3).max(usize::from(needed));
    for _ in 0..count {
        text.push(*rng.choose(b" \t\r\n"));
    }
}

pub(super) struct Declared {
    pub(super) spelling: Vec<u8>,
    pub(super) low: i64,
    pub(super) high: i64,
}

pub(super) struct Writer<'r> {
    pub(super) rng: &'r mut Rng,
    pub(super) shape: Shape,
    pub(super) tokens: Vec<Vec<u8>>,
    pub(super) names: Vec<Declared>,
    pub(super) inputs: usize,
    pub(super) ruled: Vec<bool>,
    /// Each timer and its w, by id.
    pub(super) watched: Vec<(usize, usize)>,
    /// All names have the range 0..1, and rules are such that time passes.
    pub(super) delays: bool,
    /// Counted brackets open now.
    pub(super) open: usize,
}

impl<'r> Writer<'r> {
    pub(super) fn new(rng: &'r mut Rng, shape: Shape) -> Writer<'r> {
        Writer {
            rng,
            shape,
            tokens: Vec::new(),
            names: Vec::new(),
            inputs: 0,
            ruled: Vec::new(),
            watched: Vec::new(),
            delays: false,
            open: 0,
        }
    }

    pub(super) fn names_and_rules(&mut self) {
        self.delays = delays::wanted(self.rng);
        self.inputs = self.rng.below(self.shape.inputs + 1);
        let variables = self.rng.below(self.shape.variables + 1);
        for id in 0..self.inputs + variables {
            self.declaration(id < self.inputs);
        }
        self.timers();
        let mut order: Vec<usize> = (self.inputs..self.inputs + variables).collect();
        for last in (1..order.len()).rev() {
            order.swap(last, self.rng.below(last + 1));
        }
        for variable in order {
            self.rule(variable);
            self.rule_stands(variable);
        }
    }

    pub(super) fn put(&mut self, token: impl AsRef<[u8]>) {
        self.tokens.push(token.as_ref().to_vec());
    }

    pub(super) fn put_all(&mut self, tokens: &[&[u8]]) {
        for token in tokens {
            self.put(token);
        }
    }

    fn declaration(&mut self, input: bool) {
        let spelling = self.new_name();
        let (low, high) = self.range();
        self.put(if input { "input" } else { "var" });
        self.put(&spelling);
        self.signed(low);
        self.put("..");
        self.signed(high);
        let needs_start = low > 0 || high < 0;
        if needs_start || self.rng.chance(40) {
            self.put("init");
            let start = self.rng.between(low, high);
            self.signed(start);
        }
        self.put(";");
        self.names.push(Declared {
            spelling,
            low,
            high,
        });
        self.ruled.push(false);
    }

    /// A name not declared yet; some look like words of the grammar.
    pub(super) fn new_name(&mut self) -> Vec<u8> {
        const LIKE_WORDS: [&str; 6] = ["inputs", "Var", "gx", "modx", "GX1", "init0"];
        loop {
            let mut name = Vec::new();
            if self.rng.chance(10) {
                name.extend_from_slice(self.rng.choose(&LIKE_WORDS).as_bytes());
            } else {
                let length = *self.rng.choose(&[1, 1, 2, 3, 7, 16]);
                name.push(*self.rng.choose(b"abcdvxyzABGXZ"));
                while name.len() < length {
                    name.push(*self.rng.choose(b"abcmodxyzABGXZ0189"));
                }
            }
            let mut others = self.names.iter();
            if !is_word(&name) && !others.any(|other| same_names(&other.spelling, &name)) {
                return name;
            }
        }
    }

    /// Low and high of a name.
    fn range(&mut self) -> (i64, i64) {
        let reach = self.shape.reach;
        if self.delays || self.rng.chance(40) {
            return (0, 1);
        }
        if reach > 1 << 30 && self.rng.chance(20) {
            return (-reach - 1, reach);
        }
        let ends = [self.constant(reach), self.constant(reach)];
        let signs = [self.rng.chance(50), self.rng.chance(20)];
        let a = if signs[0] { -ends[0] } else { ends[0] };
        let b = if signs[1] { -ends[1] } else { ends[1] };
        (a.min(b), a.max(b))
    }

    /// A number from 0 to `most`, often a small one.
    pub(super) fn constant(&mut self, most: i64) -> i64 {
        match self.rng.below(8) {
            0 => most,
            1 | 2 => self.rng.between(0, most),
            _ => self.rng.between(0, most.min(3)),
        }
    }

    pub(super) fn signed(&mut self, value: i64) {
        if value < 0 || self.rng.chance(3) && value == 0 {
            self.put("-");
        }
        self.digits(value.abs());
    }

    /// Digits, now and then with zeros before them.
    pub(super) fn digits(&mut self, value: i64) {
        let zeros = if self.rng.chance(4) {
            1 + self.rng.below(3)
        } else {
            0
        };
        self.put("0".repeat(zeros) + &value.to_string());
    }

    fn rule(&mut self, variable: usize) {
        if self.delays {
            return self.delay_rule(variable);
        }
        if pair_wanted(self.rng) {
            return self.pair(variable);
        }
        let v = self.names[variable].spelling.clone();
        if self.rng.chance(35) {
            self.put_all(&[&v, b":", b"GX", b"(", &v, b"=", b"("]);
            if !self.timed_value(variable) {
                self.value(variable, None);
            }
            self.put_all(&[b")", b")", b";"]);
            return;
        }
        let previous = [b"_", &v[..]].concat();
        self.put_all(&[&v, b":", b"GX", b"(", b"~", b"(", &v, b"=", &previous]);
        self.put_all(&[b")", b"->"]);
        let list = self.cases(variable);
        self.put_all(&[b")", b";", &v, b":", b"GX", b"(", &v, b"=", &previous]);
        self.put_all(&[b"->", b"~", b"("]);
        self.tokens.extend(list);
        self.put_all(&[b")", b")", b";"]);
    }

    /// The cases; the answer is the list of conditions of the no-change formula.
    fn cases(&mut self, variable: usize) -> Vec<Vec<u8>> {
        let v = self.names[variable].spelling.clone();
        let (low, high) = (self.names[variable].low, self.names[variable].high);
        let apart = self.rng.chance(70);
        let mut list: Vec<Vec<u8>> = Vec::new();
        let count = 1 + self.rng.below(self.shape.cases);
        for index in 0..count {
            if index > 0 {
                self.put("|");
                list.push(b"|".to_vec());
            }
            let from = self.tokens.len();
            self.put("[");
            // Conditions that are true for one previous value only are apart.
            let only = (low + index as i64).min(high);
            if apart {
                self.equals_previous(&v, only);
            } else {
                self.condition(3);
            }
            self.put("]");
            list.extend_from_slice(&self.tokens[from..]);
            self.put_all(&[b"&", &v, b"=", b"("]);
            self.value(variable, apart.then_some(only));
            self.put(")");
        }
        list
    }

    /// `_v = only`, sometimes with more after `&`.
    pub(super) fn equals_previous(&mut self, v: &[u8], only: i64) {
        self.put([b"_", v].concat());
        self.put("=");
        if only > i64::from(i32::MIN) {
            self.signed(only);
        } else {
            self.put_all(&[b"-", b"2147483647", b"-", b"1"]);
        }
        if self.rng.chance(30) {
            self.put("&");
            self.atom(2);
        }
    }

    /// An expression for a new value: often one in the range that is not `other`.
    pub(super) fn value(&mut self, variable: usize, other: Option<i64>) {
        let (low, high) = (self.names[variable].low, self.names[variable].high);
        if self.rng.chance(30) {
            return self.expression(3);
        }
        let mut value = self.rng.between(low, high).max(-i64::from(i32::MAX));
        if Some(value) == other && self.rng.chance(90) {
            value = if value < high {
                value + 1
            } else {
                low.max(-i64::from(i32::MAX))
            };
        }
        self.signed(value);
    }
}
