//! Timers: request A.7 of document 02.

use super::{digits, Parser};
use crate::program::{Name, Timer};
use crate::token::Kind;
use crate::{Refusal, NAME_BYTES};

impl Parser<'_> {
    /// `t of w limit N;`, after `timer`: "t is a name of range 0..1, starting at 0 and
    /// counted among the 64".
    pub(super) fn timer(&mut self) -> Result<(), Refusal> {
        let spelling = self.declared_name()?;
        let id = self.program.names.len();
        self.program.names.push(Name {
            spelling,
            low: 0,
            high: 1,
            start: 0,
        });
        self.expect(Kind::Of)?;
        let watched = self.watched(id)?;
        self.expect(Kind::Limit)?;
        let limit = self.limit()?;
        self.expect(Kind::Semicolon)?;
        self.program.timers.push(Timer { id, watched, limit });
        Ok(())
    }

    /// w: 4 unknown, 8 over-long, then "23 a w that isn't a `var` of range 0..1, at w". The
    /// timer itself, `id`, and all before it are no `var`.
    fn watched(&mut self, id: usize) -> Result<usize, Refusal> {
        self.allow(self.token.kind == Kind::Name)?;
        let spelling = self.token.name();
        if spelling.len() > NAME_BYTES {
            return Err(self.refuse(8));
        }
        let Some(watched) = self.find(spelling) else {
            return Err(self.refuse(4));
        };
        let variables = self.program.inputs..id - self.program.timers.len();
        let name = &self.program.names[watched];
        if !variables.contains(&watched) || (name.low, name.high) != (0, 1) {
            return Err(self.refuse(23));
        }
        self.take()?;
        Ok(watched)
    }

    /// "N from 1 to 2,147,483,647 milliseconds"
    fn limit(&mut self) -> Result<i32, Refusal> {
        self.allow(self.token.kind == Kind::Digits)?;
        match i32::try_from(digits(self.token.spelling)) {
            Ok(limit) if limit >= 1 => {
                self.take()?;
                Ok(limit)
            }
            _ => Err(self.refuse(3)),
        }
    }

    /// Whether the name is a timer.
    pub(super) fn is_timer(&self, id: usize) -> bool {
        self.program.timers.iter().any(|timer| timer.id == id)
    }

    /// The rule of a variable is whole: "others use t as a current value only after w's
    /// rule".
    pub(super) fn rule_stands(&mut self, variable: usize) {
        self.ruled[variable] = true;
        for timer in &self.program.timers {
            if timer.watched == variable {
                self.ruled[timer.id] = true;
            }
        }
    }
}
