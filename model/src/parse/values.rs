//! Conditions and expressions.

use super::{digits, Parser};
use crate::program::{Atom, Condition, Expression, Factor, Operand, Product, Relation, Sum, Term};
use crate::token::Kind;
use crate::{Refusal, BRACKETS, NAME_BYTES};

impl<'t> Parser<'t> {
    /// "A condition c is `|` over `&` over atoms"
    pub(super) fn condition(&mut self) -> Result<Condition, Refusal> {
        let mut any = vec![self.conjunction()?];
        while self.token.kind == Kind::Or {
            self.take()?;
            any.push(self.conjunction()?);
        }
        Ok(Condition { any })
    }

    fn conjunction(&mut self) -> Result<Vec<Atom>, Refusal> {
        let mut all = vec![self.atom()?];
        while self.token.kind == Kind::And {
            self.take()?;
            all.push(self.atom()?);
        }
        Ok(all)
    }

    /// "an atom is a comparison of two expressions ... or `[c]`, the latter with at
    /// most one `~` before it"
    fn atom(&mut self) -> Result<Atom, Refusal> {
        let negated = self.token.kind == Kind::Not;
        if negated {
            self.take()?;
        }
        if negated || self.token.kind == Kind::OpenSquare {
            self.open_bracket(Kind::OpenSquare)?;
            let condition = Box::new(self.condition()?);
            self.close_bracket(Kind::CloseSquare)?;
            return Ok(Atom::Bracket { negated, condition });
        }
        let left = self.expression()?;
        let relation = self.relation()?;
        let right = self.expression()?;
        Ok(Atom::Compare {
            relation,
            left,
            right,
        })
    }

    /// "(`=` `<>` `<` `<=` `>` `>=`)"
    fn relation(&mut self) -> Result<Relation, Refusal> {
        let relation = match self.token.kind {
            Kind::Equal => Some(Relation::Equal),
            Kind::Unequal => Some(Relation::Unequal),
            Kind::Less => Some(Relation::Less),
            Kind::LessEqual => Some(Relation::LessEqual),
            Kind::Greater => Some(Relation::Greater),
            Kind::GreaterEqual => Some(Relation::GreaterEqual),
            _ => None,
        };
        self.allow(relation.is_some())?;
        self.take()?;
        Ok(relation.unwrap_or(Relation::Equal))
    }

    /// "An expression e is `+ -` over `* / mod` over factors, left to right"
    pub(super) fn expression(&mut self) -> Result<Expression, Refusal> {
        let first = self.term()?;
        let mut rest = Vec::new();
        loop {
            let operator = match self.token.kind {
                Kind::Plus => Sum::Add,
                Kind::Minus => Sum::Subtract,
                _ => return Ok(Expression { first, rest }),
            };
            self.take()?;
            rest.push((operator, self.term()?));
        }
    }

    fn term(&mut self) -> Result<Term, Refusal> {
        let first = self.factor()?;
        let mut rest = Vec::new();
        loop {
            let operator = match self.token.kind {
                Kind::Star => Product::Multiply,
                Kind::Slash => Product::Divide,
                Kind::Mod => Product::Modulo,
                _ => return Ok(Term { first, rest }),
            };
            self.take()?;
            rest.push((operator, self.factor()?));
        }
    }

    /// "a factor is at most one `-`, then a number up to 2,147,483,647, a name,
    /// `_`name or `(e)`"
    fn factor(&mut self) -> Result<Factor, Refusal> {
        let negated = self.token.kind == Kind::Minus;
        if negated {
            self.take()?;
        }
        let operand = match self.token.kind {
            Kind::Digits => self.number()?,
            Kind::Name => Operand::Current(self.name_used()?),
            Kind::Previous => Operand::Previous(self.name_used()?),
            _ => {
                self.open_bracket(Kind::OpenRound)?;
                let inner = self.expression()?;
                self.close_bracket(Kind::CloseRound)?;
                Operand::Bracket(Box::new(inner))
            }
        };
        Ok(Factor { negated, operand })
    }

    /// "3 number out of limit"
    fn number(&mut self) -> Result<Operand, Refusal> {
        let value = digits(self.token.spelling);
        if value > i64::from(i32::MAX) {
            return Err(self.refuse(3));
        }
        self.take()?;
        Ok(Operand::Number(value as i32))
    }

    /// The id of a name or `_`name: 4 unknown, 5 current value too early, (7 by `take`,)
    /// 8 over-long. "A current value is used only for inputs and for variables whose
    /// rule stands earlier; a previous value for any name."
    fn name_used(&mut self) -> Result<usize, Refusal> {
        let token = self.token;
        if token.name().len() > NAME_BYTES {
            self.take()?;
            return Err(Refusal::new(8, token.place));
        }
        let Some(id) = self.find(token.name()) else {
            return Err(self.refuse(4));
        };
        // A.13: watches "may use any current and previous value".
        let early = id >= self.program.inputs && !self.ruled[id] && !self.watching;
        if token.kind == Kind::Name && early {
            return Err(self.refuse(5));
        }
        self.take()?;
        Ok(id)
    }

    /// A counted bracket: "8 17th bracket".
    fn open_bracket(&mut self, kind: Kind) -> Result<(), Refusal> {
        let place = self.token.place;
        self.expect(kind)?;
        if self.open == BRACKETS {
            return Err(Refusal::new(8, place));
        }
        self.open += 1;
        Ok(())
    }

    fn close_bracket(&mut self, kind: Kind) -> Result<(), Refusal> {
        self.expect(kind)?;
        self.open -= 1;
        Ok(())
    }
}
