//! Texts with timers (request A.7) in which time passes: all names have the range 0..1, and
//! no row in range is refused. Edits of timers. Without the request no random number is taken
//! here.

use super::text::Writer;
use super::timers::in_texts;
use super::Rng;
use crate::features;

/// Whether the next text is such a one.
pub(super) fn wanted(rng: &mut Rng) -> bool {
    in_texts() && rng.chance(25)
}

impl Writer<'_> {
    /// The rule of a variable: a function, or two cases that each change the value.
    pub(super) fn delay_rule(&mut self, variable: usize) {
        let v = self.names[variable].spelling.clone();
        match self.rng.below(4) {
            0 if features::in_force().pairs => self.turns(&v),
            0 | 1 => self.changes(&v),
            _ => {
                self.put_all(&[&v, b":", b"GX", b"(", &v, b"=", b"("]);
                self.bit();
                self.put_all(&[b")", b")", b";"]);
            }
        }
    }

    /// `v: GX(~(v = _v) -> cases);` and its no-change formula.
    fn changes(&mut self, v: &[u8]) {
        let previous = [b"_", v].concat();
        self.put_all(&[v, b":", b"GX", b"(", b"~", b"(", v, b"=", &previous]);
        self.put_all(&[b")", b"->"]);
        let first = self.turn(v, 1);
        self.put("|");
        let second = self.turn(v, 0);
        self.put_all(&[b")", b";", v, b":", b"GX", b"(", v, b"=", &previous]);
        self.put_all(&[b"->", b"~", b"("]);
        self.tokens.extend(first);
        self.put("|");
        self.tokens.extend(second);
        self.put_all(&[b")", b")", b";"]);
    }

    /// `v+: GX(v > _v -> case); v-: GX(v < _v -> case);`
    fn turns(&mut self, v: &[u8]) {
        let previous = [b"_", v].concat();
        for (sign, direction, value) in [(b"+", b">", 1), (b"-", b"<", 0)] {
            self.put_all(&[v, sign, b":", b"GX", b"(", v, direction, &previous, b"->"]);
            self.turn(v, value);
            self.put_all(&[b")", b";"]);
        }
    }

    /// A case that gives v this value, if it has the other one and a bit says so; the answer
    /// is its condition with the brackets.
    fn turn(&mut self, v: &[u8], value: i64) -> Vec<Vec<u8>> {
        let from = self.tokens.len();
        self.put_all(&[b"[", &[b"_", v].concat(), b"="]);
        self.digits(1 - value);
        self.put("&");
        self.bit();
        self.put("=");
        self.digits(value);
        self.put("]");
        let condition = self.tokens[from..].to_vec();
        self.put_all(&[b"&", v, b"=", b"("]);
        self.digits(value);
        self.put(")");
        condition
    }

    /// An expression of the value 0 or 1: often a timer, or 1, so that time passes.
    fn bit(&mut self) {
        match self.rng.below(8) {
            0 => self.put_all(&[b"1", b"-"]),
            1 => {
                self.single_bit();
                self.put("*");
            }
            _ => {}
        }
        self.single_bit();
    }

    fn single_bit(&mut self) {
        let known: Vec<usize> = (0..self.names.len())
            .filter(|&id| id < self.inputs || self.ruled[id])
            .collect();
        let first = self.names.len() - self.watched.len();
        let timers: Vec<usize> = known.iter().copied().filter(|&id| id >= first).collect();
        match self.rng.below(6) {
            0 => self.put("1"),
            1 => {
                let id = self.rng.below(self.names.len());
                self.put([b"_", &self.names[id].spelling[..]].concat());
            }
            2 | 3 if !timers.is_empty() => {
                let id = *self.rng.choose(&timers);
                self.put(self.names[id].spelling.clone());
            }
            _ if known.is_empty() => self.put("1"),
            _ => {
                let id = *self.rng.choose(&known);
                self.put(self.names[id].spelling.clone());
            }
        }
    }
}

/// Now and then an edit of a timer: another w, name, limit or word of its declaration, or a
/// rule for it. Whether one was made.
pub(super) fn mutate_timer(rng: &mut Rng, tokens: &mut Vec<Vec<u8>>) -> bool {
    const LIMITS: [&str; 6] = ["0", "1", "00", "2147483647", "2147483648", "4294967297"];
    const WORDS: [&str; 6] = ["timer", "of", "limit", "Timer", "OF", "limits"];
    // A declaration has seven tokens.
    let timers: Vec<usize> = (0..tokens.len().saturating_sub(6))
        .filter(|&at| in_texts() && tokens[at] == b"timer")
        .collect();
    if timers.is_empty() || !rng.chance(25) {
        return false;
    }
    let at = *rng.choose(&timers);
    match rng.below(8) {
        0..=3 => tokens[at + 3] = some_name(rng, tokens),
        4 => tokens[at + 1] = some_name(rng, tokens),
        5 => tokens[at + 5] = rng.choose(&LIMITS).as_bytes().to_vec(),
        6 => {
            let word = at + *rng.choose(&[0, 2, 4]);
            tokens[word] = rng.choose(&WORDS).as_bytes().to_vec();
        }
        _ => rule_for(rng, tokens, at),
    }
    true
}

/// A declared name, an input or a timer too; now and then one that is not, or is too long.
fn some_name(rng: &mut Rng, tokens: &[Vec<u8>]) -> Vec<u8> {
    let declared: Vec<&Vec<u8>> = tokens
        .windows(2)
        .filter(|pair| [&b"input"[..], b"var", b"timer"].contains(&&pair[0][..]))
        .map(|pair| &pair[1])
        .collect();
    match rng.below(8) {
        0 => b"zz".to_vec(),
        1 => b"abcdefghijklmnopq".to_vec(),
        _ => rng.choose(&declared).to_vec(),
    }
}

/// A rule for the timer declared at `at`, behind a semicolon from there on.
fn rule_for(rng: &mut Rng, tokens: &mut Vec<Vec<u8>>, at: usize) {
    let ends: Vec<usize> = (at..tokens.len()).filter(|&i| tokens[i] == b";").collect();
    if ends.is_empty() {
        return;
    }
    let behind = *rng.choose(&ends) + 1;
    let t = tokens[at + 1].clone();
    let rule = [
        &t[..],
        b":",
        b"GX",
        b"(",
        &t,
        b"=",
        b"(",
        b"1",
        b")",
        b")",
        b";",
    ];
    tokens.splice(behind..behind, rule.map(<[u8]>::to_vec));
}
