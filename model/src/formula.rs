//! The formulas of a program, satisfied by a trace or not.
//!
//! This evaluator shares no arithmetic with the scans. Values of a trace may be any
//! whole numbers; results of operations outside 32 bits are refused by 14 (here None).

use std::cmp::Ordering;

use crate::program::{
    Atom, Body, Case, Condition, Expression, Factor, Operand, Product, Program, Relation, Rule,
    Sum, Term, Timer,
};

/// Whether a list of states is a trace that satisfies every formula of the program:
/// "A trace satisfies `GX(f)` exactly if f holds at each of its places after the start,
/// with the values of the place before as previous values". Every state has one value
/// for each name. Only for texts without timers.
pub fn satisfies<S: AsRef<[i64]>>(program: &Program, trace: &[S]) -> bool {
    assert!(program.timers.is_empty(), "a timer needs milliseconds");
    satisfies_timed(program, trace, &vec![0; trace.len()])
}

/// The same with timers: "The one trace includes elapsed time and these equations". A place
/// after the start has the milliseconds of its row, the first of them for the second place.
pub fn satisfies_timed<S: AsRef<[i64]>>(
    program: &Program,
    trace: &[S],
    milliseconds: &[i64],
) -> bool {
    assert!(trace.len() <= milliseconds.len() + 1, "one for each row");
    let length = program.state_length();
    let mut places = trace.windows(2).zip(milliseconds);
    trace.iter().all(|state| state.as_ref().len() == length)
        && places.all(|(pair, &time)| {
            step_satisfies_timed(program, pair[0].as_ref(), pair[1].as_ref(), time)
        })
}

/// Whether every formula holds at a place with the values `current`, after a place with
/// the values `previous`. Only for texts without timers.
pub fn step_satisfies(program: &Program, previous: &[i64], current: &[i64]) -> bool {
    assert!(program.timers.is_empty(), "a timer needs milliseconds");
    step_satisfies_timed(program, previous, current, 0)
}

/// The same with timers, so many milliseconds later.
pub fn step_satisfies_timed(
    program: &Program,
    previous: &[i64],
    current: &[i64],
    milliseconds: i64,
) -> bool {
    let place = Place { previous, current };
    let mut timers = program.timers.iter().enumerate();
    program.rules.iter().all(|rule| place.rule_holds(rule))
        && timers.all(|(index, timer)| {
            place.timer_holds(timer, program.names.len() + index, milliseconds)
        })
}

/// Whether a condition holds at a place; None where it meets 14.
pub(crate) fn condition_holds(
    condition: &Condition,
    previous: &[i64],
    current: &[i64],
) -> Option<bool> {
    Place { previous, current }.condition(condition)
}

/// One place of a trace.
struct Place<'a> {
    previous: &'a [i64],
    current: &'a [i64],
}

impl Place<'_> {
    /// "A formula that needs a value refused by 14 isn't satisfied."
    fn rule_holds(&self, rule: &Rule) -> bool {
        let v = rule.variable;
        match &rule.body {
            Body::Function(expression) => self.function_holds(v, expression),
            Body::Change { cases, unchanged } => {
                self.change_holds(v, cases) == Some(true)
                    && self.no_change_holds(v, unchanged) == Some(true)
            }
        }
    }

    /// The two equations of a timer, whose elapsed time stands at `at`.
    fn timer_holds(&self, timer: &Timer, at: usize, milliseconds: i64) -> bool {
        let (w, before) = (self.current[timer.watched], self.previous[timer.watched]);
        let limit = i128::from(timer.limit);
        // "if w is 0 or rose from 0, elapsed is 0; else the smaller of N and elapsed plus
        // milliseconds"
        let elapsed = if w == 0 || before == 0 && w > 0 {
            0
        } else {
            limit.min(i128::from(self.previous[at]) + i128::from(milliseconds))
        };
        // "t is 1 exactly if w is 1 and elapsed is N", and it is of range 0..1
        let on = i64::from(w == 1 && elapsed == limit);
        i128::from(self.current[at]) == elapsed && self.current[timer.id] == on
    }

    /// `v = (e)`
    fn function_holds(&self, v: usize, expression: &Expression) -> bool {
        self.expression(expression) == Some(i128::from(self.current[v]))
    }

    /// `~(v = _v) -> [c] & v = (e) | [c] & v = (e)`: all conditions are worked out, "a
    /// case's expression only if its condition holds".
    fn change_holds(&self, v: usize, cases: &[Case]) -> Option<bool> {
        let mut some_case = false;
        for case in cases {
            if self.condition(&case.condition)? {
                let value = self.expression(&case.expression)?;
                some_case |= value == i128::from(self.current[v]);
            }
        }
        let changed = self.current[v] != self.previous[v];
        Some(!changed || some_case)
    }

    /// `v = _v -> ~([c] | [c])`
    fn no_change_holds(&self, v: usize, conditions: &[Condition]) -> Option<bool> {
        let mut some = false;
        for condition in conditions {
            some |= self.condition(condition)?;
        }
        let unchanged = self.current[v] == self.previous[v];
        Some(!unchanged || !some)
    }

    /// "Both operands of `&` and `|` are worked out."
    fn condition(&self, condition: &Condition) -> Option<bool> {
        let parts: Option<Vec<bool>> = condition.any.iter().map(|all| self.all(all)).collect();
        Some(parts?.contains(&true))
    }

    fn all(&self, atoms: &[Atom]) -> Option<bool> {
        let parts: Option<Vec<bool>> = atoms.iter().map(|atom| self.atom(atom)).collect();
        Some(!parts?.contains(&false))
    }

    fn atom(&self, atom: &Atom) -> Option<bool> {
        match atom {
            Atom::Compare {
                relation,
                left,
                right,
            } => {
                let order = self.expression(left)?.cmp(&self.expression(right)?);
                Some(holds(*relation, order))
            }
            Atom::Bracket { negated, condition } => {
                let inner = self.condition(condition)?;
                Some(if *negated { !inner } else { inner })
            }
        }
    }

    fn expression(&self, expression: &Expression) -> Option<i128> {
        let first = self.term(&expression.first)?;
        expression.rest.iter().try_fold(first, |left, (op, term)| {
            let right = self.term(term)?;
            in_32_bits(match op {
                Sum::Add => left + right,
                Sum::Subtract => left - right,
            })
        })
    }

    fn term(&self, term: &Term) -> Option<i128> {
        let first = self.factor(&term.first)?;
        term.rest.iter().try_fold(first, |left, (op, factor)| {
            let right = self.factor(factor)?;
            match op {
                Product::Multiply => in_32_bits(left * right),
                Product::Divide => in_32_bits(quotient(left, right)?),
                Product::Modulo => in_32_bits(remainder(left, right)),
            }
        })
    }

    fn factor(&self, factor: &Factor) -> Option<i128> {
        let value = match &factor.operand {
            Operand::Number(value) => i128::from(*value),
            Operand::Current(id) => i128::from(self.current[*id]),
            Operand::Previous(id) => i128::from(self.previous[*id]),
            Operand::Bracket(inner) => self.expression(inner)?,
        };
        if factor.negated {
            return in_32_bits(0 - value);
        }
        Some(value)
    }
}

/// "Division cuts toward zero": the quotient of the sizes, with its sign.
fn quotient(left: i128, right: i128) -> Option<i128> {
    let size = left.abs().checked_div(right.abs())?;
    let negative = (left < 0) != (right < 0);
    Some(if negative { -size } else { size })
}

/// "a mod b = a - b * (a / b) in whole numbers"; 0 where there is no quotient (A.5).
fn remainder(left: i128, right: i128) -> i128 {
    quotient(left, right).map_or(0, |cut| left - right * cut)
}

fn in_32_bits(value: i128) -> Option<i128> {
    let range = i128::from(i32::MIN)..=i128::from(i32::MAX);
    range.contains(&value).then_some(value)
}

fn holds(relation: Relation, order: Ordering) -> bool {
    match relation {
        Relation::Equal => order.is_eq(),
        Relation::Unequal => order.is_ne(),
        Relation::Less => order.is_lt(),
        Relation::LessEqual => order.is_le(),
        Relation::Greater => order.is_gt(),
        Relation::GreaterEqual => order.is_ge(),
    }
}
