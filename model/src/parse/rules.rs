//! Rules: a function, a change formula followed by its no-change formula, or a rising
//! formula followed by its falling one.

use super::{List, Parser};
use crate::program::{Body, Case, Condition, Expression, Rule};
use crate::token::{same_names, Kind};
use crate::{features, Refusal, CASES, NAME_BYTES};

impl<'t> Parser<'t> {
    /// `v: GX(v = (e));`, a change formula with its no-change formula, or the pair of A.6.
    pub(super) fn rule(&mut self) -> Result<(), Refusal> {
        let variable = self.rule_name()?;
        let rule = if features::in_force().pairs && self.token.kind == Kind::Plus {
            self.pair(variable)?
        } else {
            self.opening()?;
            let body = match self.token.kind {
                Kind::Not => self.change(variable)?,
                _ => self.function(variable)?,
            };
            Rule {
                variable,
                body,
                rising: None,
            }
        };
        self.rule_stands(variable);
        self.program.rules.push(rule);
        Ok(())
    }

    /// `: GX(`
    fn opening(&mut self) -> Result<(), Refusal> {
        self.expect(Kind::Colon)?;
        self.expect(Kind::Gx)?;
        self.expect(Kind::OpenRound)
    }

    /// "4 unknown ... name", "6 rule for an input or a second rule (at its name)",
    /// "8 ... over-long name"; over-long is "never 4".
    fn rule_name(&mut self) -> Result<usize, Refusal> {
        self.allow(self.token.kind == Kind::Name)?;
        let spelling = self.token.name();
        if spelling.len() > NAME_BYTES {
            return Err(self.refuse(8));
        }
        let Some(id) = self.find(spelling) else {
            return Err(self.refuse(4));
        };
        // A.7: "A rule for t is 6"
        if id < self.program.inputs || self.ruled[id] || self.is_timer(id) {
            return Err(self.refuse(6));
        }
        self.take()?;
        Ok(id)
    }

    /// `v = (e));`
    fn function(&mut self, variable: usize) -> Result<Body, Refusal> {
        let expression = self.assignment(variable)?;
        self.expect(Kind::CloseRound)?;
        self.expect(Kind::Semicolon)?;
        Ok(Body::Function(expression))
    }

    /// From the `~` of a change formula to the end of its no-change formula.
    fn change(&mut self, variable: usize) -> Result<Body, Refusal> {
        self.expect(Kind::Not)?;
        self.expect(Kind::OpenRound)?;
        self.unchanged_pair(variable)?;
        self.expect(Kind::CloseRound)?;
        self.expect(Kind::Arrow)?;
        self.wanted.clear();
        let cases = self.cases(variable, CASES)?;
        self.expect(Kind::Semicolon)?;

        // "A change formula is followed directly by its no-change formula"
        self.repeated(Kind::Name, variable)?;
        self.opening()?;
        self.unchanged_pair(variable)?;
        self.expect(Kind::Arrow)?;
        self.expect(Kind::Not)?;
        self.expect(Kind::OpenRound)?;
        let unchanged = self.condition_list()?;
        self.expect(Kind::CloseRound)?;
        self.expect(Kind::Semicolon)?;
        Ok(Body::Change { cases, unchanged })
    }

    /// From the `+` of a rising formula to the end of its falling one: "`v+: GX(v > _v ->
    /// cases);` and `v-: GX(v < _v -> cases);`, in this order, case lists as before, at most
    /// 32 in the two together".
    fn pair(&mut self, variable: usize) -> Result<Rule, Refusal> {
        self.expect(Kind::Plus)?;
        let mut cases = self.side(variable, Kind::Greater, CASES)?;
        let rising = cases.len();
        self.repeated(Kind::Name, variable)?;
        self.expect(Kind::Minus)?;
        cases.extend(self.side(variable, Kind::Less, CASES - rising)?);
        // "read as the change formula over both lists, rising first, with its matching
        // no-change formula"
        let unchanged = cases.iter().map(|case| case.condition.clone()).collect();
        Ok(Rule {
            variable,
            body: Body::Change { cases, unchanged },
            rising: Some(rising),
        })
    }

    /// `: GX(v > _v -> cases);`, or with `<`; at most so many cases.
    fn side(
        &mut self,
        variable: usize,
        direction: Kind,
        most: usize,
    ) -> Result<Vec<Case>, Refusal> {
        self.opening()?;
        self.repeated(Kind::Name, variable)?;
        self.expect(direction)?;
        self.repeated(Kind::Previous, variable)?;
        self.expect(Kind::Arrow)?;
        let cases = self.cases(variable, most)?;
        self.expect(Kind::Semicolon)?;
        Ok(cases)
    }

    /// `v = _v`
    fn unchanged_pair(&mut self, variable: usize) -> Result<(), Refusal> {
        self.repeated(Kind::Name, variable)?;
        self.expect(Kind::Equal)?;
        self.repeated(Kind::Previous, variable)
    }

    /// `v = (e)`
    fn assignment(&mut self, variable: usize) -> Result<Expression, Refusal> {
        self.repeated(Kind::Name, variable)?;
        self.expect(Kind::Equal)?;
        self.expect(Kind::OpenRound)?;
        let expression = self.expression()?;
        self.expect(Kind::CloseRound)?;
        Ok(expression)
    }

    /// The name of the rule once more: 2 includes "a wrong repeated name".
    fn repeated(&mut self, kind: Kind, variable: usize) -> Result<(), Refusal> {
        let spelling = self.program.names[variable].spelling;
        let same = self.token.kind == kind && same_names(self.token.name(), spelling);
        self.allow(same)?;
        self.take()
    }

    /// `[c] & v = (e) | [c] & v = (e))`, the closing bracket of `GX(` included.
    /// The tokens wanted in the no-change formula are kept: all of `[c]`, the `|`
    /// between the cases, and the closing bracket. At most `most` cases.
    fn cases(&mut self, variable: usize, most: usize) -> Result<Vec<Case>, Refusal> {
        let mut cases = Vec::new();
        loop {
            self.list = List::Keep;
            let place = self.token.place;
            self.expect(Kind::OpenSquare)?;
            // "8 ... 33rd case (at `[`)"
            if cases.len() == most {
                return Err(Refusal::new(8, place));
            }
            let condition = self.condition()?;
            self.expect(Kind::CloseSquare)?;
            self.list = List::Off;
            self.expect(Kind::And)?;
            let expression = self.assignment(variable)?;
            cases.push(Case {
                condition,
                expression,
            });
            self.list = List::Keep;
            if self.token.kind != Kind::Or {
                self.expect(Kind::CloseRound)?;
                self.list = List::Off;
                return Ok(cases);
            }
            self.take()?;
        }
    }

    /// `[c] | [c])` inside `~(`, the closing bracket included.
    fn condition_list(&mut self) -> Result<Vec<Condition>, Refusal> {
        self.list = List::Compare;
        self.compared = 0;
        let mut conditions = Vec::new();
        loop {
            self.expect(Kind::OpenSquare)?;
            conditions.push(self.condition()?);
            self.expect(Kind::CloseSquare)?;
            if self.token.kind != Kind::Or {
                self.expect(Kind::CloseRound)?;
                self.list = List::Off;
                return Ok(conditions);
            }
            self.take()?;
        }
    }
}
