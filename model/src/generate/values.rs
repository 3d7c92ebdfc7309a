//! Random conditions and expressions of the text generator.

use super::text::Writer;
use crate::BRACKETS;

impl Writer<'_> {
    /// `|` over `&` over atoms; `size` bounds the length.
    pub(super) fn condition(&mut self, size: usize) {
        for part in 0..1 + self.rng.below(size) {
            if part > 0 {
                self.put("|");
            }
            for atom in 0..1 + self.rng.below(size) {
                if atom > 0 {
                    self.put("&");
                }
                self.atom(size);
            }
        }
    }

    pub(super) fn atom(&mut self, size: usize) {
        if self.may_open() && self.rng.chance(30) {
            if self.rng.chance(50) {
                self.put("~");
            }
            self.put("[");
            self.open += 1;
            self.condition(size.div_ceil(2));
            self.open -= 1;
            self.put("]");
            return;
        }
        self.expression(size.div_ceil(2));
        let relation = *self.rng.choose(&["=", "<>", "<", "<=", ">", ">="]);
        self.put(relation);
        self.expression(size.div_ceil(2));
    }

    pub(super) fn expression(&mut self, size: usize) {
        for part in 0..1 + self.rng.below(size) {
            if part > 0 {
                let operator = *self.rng.choose(&["+", "-"]);
                self.put(operator);
            }
            for factor in 0..1 + self.rng.below(size) {
                if factor > 0 {
                    let operator = *self.rng.choose(&["*", "/", "mod"]);
                    self.put(operator);
                }
                self.factor(size);
            }
        }
    }

    fn factor(&mut self, size: usize) {
        if self.rng.chance(15) {
            self.put("-");
        }
        if self.may_open() && self.rng.chance(20) {
            self.put("(");
            self.open += 1;
            self.expression(size.div_ceil(2));
            self.open -= 1;
            self.put(")");
            return;
        }
        let current: Vec<usize> = (0..self.names.len())
            .filter(|&id| id < self.inputs || self.ruled[id])
            .collect();
        match self.rng.below(3) {
            0 if !current.is_empty() => {
                let id = *self.rng.choose(&current);
                self.put(self.names[id].spelling.clone());
            }
            1 if !self.names.is_empty() => {
                let id = self.rng.below(self.names.len());
                self.put([b"_", &self.names[id].spelling[..]].concat());
            }
            _ => {
                let value = self.constant(self.shape.reach.max(3));
                self.digits(value);
            }
        }
    }

    fn may_open(&mut self) -> bool {
        self.open < self.shape.brackets.min(BRACKETS)
    }
}
