//! The plain scan: "given an accepted text, a state and a row, and knows no image".

use crate::program::{
    Atom, Body, Case, Condition, Expression, Factor, Name, Operand, Product, Program, Relation,
    Sum, Term,
};

/// The plain scan of one row; Err is the number of the first refusal. `state` has one
/// value for each name, then one for each timer.
pub fn plain_scan(program: &Program, state: &mut [i32], row: &[i32]) -> Result<(), u8> {
    // "A row of wrong length is 12, else an input outside its range 13."
    if row.len() != program.row_length() {
        return Err(12);
    }
    let (inputs, milliseconds) = row.split_at(program.inputs);
    let mut ranged = inputs.iter().zip(&program.names);
    // A.7: "a negative one is 13"
    if ranged.any(|(value, name)| !in_range(name, *value)) || milliseconds.iter().any(|&m| m < 0) {
        return Err(13);
    }
    // "current ones are the row's inputs and the new values found so far"
    let mut current = state.to_vec();
    current[..inputs.len()].copy_from_slice(inputs);
    // "Rules are taken in text order"
    for rule in &program.rules {
        let values = Values {
            current: &current,
            previous: state,
        };
        let name = &program.names[rule.variable];
        let new = match &rule.body {
            Body::Function(expression) => function(&values, name, expression)?,
            Body::Change { cases, .. } => {
                change(&values, name, state[rule.variable], cases, rule.rising)?
            }
        };
        current[rule.variable] = new;
        for &time in milliseconds {
            work_timers(program, rule.variable, state, &mut current, time);
        }
    }
    // "without one, the row's inputs and the new values are the state"
    state.copy_from_slice(&current);
    Ok(())
}

/// "Directly after the rule of w: if w is 0 or rose from 0, elapsed is 0; else the smaller
/// of N and elapsed plus milliseconds. Then t is 1 exactly if w is 1 and elapsed is N."
/// Elapsed times stand "after the values in the state, by timer id".
fn work_timers(program: &Program, w: usize, state: &[i32], current: &mut [i32], time: i32) {
    for (index, timer) in program.timers.iter().enumerate() {
        if timer.watched != w {
            continue;
        }
        let place = program.names.len() + index;
        let rose_from_0 = state[w] == 0 && current[w] > 0;
        let elapsed = if current[w] == 0 || rose_from_0 {
            0
        } else {
            let sum = i64::from(state[place]) + i64::from(time);
            sum.min(i64::from(timer.limit))
        };
        current[place] = elapsed as i32;
        let is_over = elapsed == i64::from(timer.limit);
        current[timer.id] = i32::from(current[w] == 1 && is_over);
    }
}

fn in_range(name: &Name, value: i32) -> bool {
    name.low <= value && value <= name.high
}

/// "A function's expression outside the range is 17, else it is the new value."
fn function(values: &Values, name: &Name, expression: &Expression) -> Result<i32, u8> {
    let value = values.expression(expression)?;
    if !in_range(name, value) {
        return Err(17);
    }
    Ok(value)
}

/// "The cases of a rule are taken in order, each condition worked out; a false one ends
/// its case. One that holds after another of the rule held is 15. Else the expression is
/// worked out: equal to the previous value it is 16, then outside the variable's range
/// 17, else it is the new value. If no case held, the new value is the previous one." In a
/// pair 22 stands in the place of 16 (A.6).
fn change(
    values: &Values,
    name: &Name,
    previous: i32,
    cases: &[Case],
    rising: Option<usize>,
) -> Result<i32, u8> {
    let mut found = None;
    for (index, case) in cases.iter().enumerate() {
        if !values.condition(&case.condition)? {
            continue;
        }
        if found.is_some() {
            return Err(15);
        }
        let value = values.expression(&case.expression)?;
        let rises = rising.map(|rising| index < rising);
        moved(rises, value, previous)?;
        if !in_range(name, value) {
            return Err(17);
        }
        found = Some(value);
    }
    Ok(found.unwrap_or(previous))
}

/// Whether the value of a case moves as it must: 16, or "22 a rising pick at or below the
/// previous value, or a falling one at or above it".
fn moved(rises: Option<bool>, value: i32, previous: i32) -> Result<(), u8> {
    let (moves, number) = match rises {
        Some(true) => (value > previous, 22),
        Some(false) => (value < previous, 22),
        None => (value != previous, 16),
    };
    if moves {
        Ok(())
    } else {
        Err(number)
    }
}

/// The values that a rule may use. A current value that is used belongs to an input or
/// to a variable whose rule stands earlier.
struct Values<'a> {
    current: &'a [i32],
    previous: &'a [i32],
}

impl Values<'_> {
    /// "Both operands of `&` and `|` are worked out."
    fn condition(&self, condition: &Condition) -> Result<bool, u8> {
        let mut any = false;
        for atoms in &condition.any {
            let mut all = true;
            for atom in atoms {
                all &= self.atom(atom)?;
            }
            any |= all;
        }
        Ok(any)
    }

    fn atom(&self, atom: &Atom) -> Result<bool, u8> {
        match atom {
            Atom::Compare {
                relation,
                left,
                right,
            } => {
                let left = self.expression(left)?;
                let right = self.expression(right)?;
                Ok(compare(*relation, left, right))
            }
            Atom::Bracket { negated, condition } => Ok(self.condition(condition)? != *negated),
        }
    }

    fn expression(&self, expression: &Expression) -> Result<i32, u8> {
        let mut value = self.term(&expression.first)?;
        for (operator, term) in &expression.rest {
            let left = i64::from(value);
            let right = i64::from(self.term(term)?);
            value = result(match operator {
                Sum::Add => left + right,
                Sum::Subtract => left - right,
            })?;
        }
        Ok(value)
    }

    fn term(&self, term: &Term) -> Result<i32, u8> {
        let mut value = self.factor(&term.first)?;
        for (operator, factor) in &term.rest {
            let right = self.factor(factor)?;
            value = product(*operator, i64::from(value), i64::from(right))?;
        }
        Ok(value)
    }

    fn factor(&self, factor: &Factor) -> Result<i32, u8> {
        let value = match &factor.operand {
            Operand::Number(value) => *value,
            Operand::Current(id) => self.current[*id],
            Operand::Previous(id) => self.previous[*id],
            Operand::Bracket(inner) => self.expression(inner)?,
        };
        if factor.negated {
            return result(-i64::from(value));
        }
        Ok(value)
    }
}

/// "Division cuts toward zero; a mod b = a - b * (a / b) in whole numbers"; A.5: MOD gives
/// "0 when the divisor is 0"; "division by zero is still 14".
fn product(operator: Product, a: i64, b: i64) -> Result<i32, u8> {
    match operator {
        Product::Multiply => result(a * b),
        Product::Divide if b == 0 => Err(14),
        Product::Divide => result(a / b),
        Product::Modulo if b == 0 => Ok(0),
        Product::Modulo => result(a - b * (a / b)),
    }
}

/// "its result must be in the 32-bit signed range"
fn result(whole: i64) -> Result<i32, u8> {
    i32::try_from(whole).map_err(|_| 14)
}

fn compare(relation: Relation, left: i32, right: i32) -> bool {
    match relation {
        Relation::Equal => left == right,
        Relation::Unequal => left != right,
        Relation::Less => left < right,
        Relation::LessEqual => left <= right,
        Relation::Greater => left > right,
        Relation::GreaterEqual => left >= right,
    }
}
