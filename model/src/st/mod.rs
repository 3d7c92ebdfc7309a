//! The meaning of ST, "the text language of IEC 61131-3, cut down to the words used here",
//! from the standard's reading in document 02, "without the translator".
//!
//! `read` makes a unit of bytes; `Unit::run` says what it does.

mod read;

pub use read::read;

/// A program organization unit: declarations and statements. A name is given by its place
/// in `names`; those of VAR_INPUT come first.
#[derive(Clone, Debug, PartialEq, Eq)]
pub struct Unit {
    pub names: Vec<Declared>,
    pub inputs: usize,
    pub statements: Vec<Statement>,
}

/// `name : DINT := start;`. "A DINT is a signed 32-bit number."
#[derive(Clone, Debug, PartialEq, Eq)]
pub struct Declared {
    pub name: String,
    pub start: i32,
}

#[derive(Clone, Debug, PartialEq, Eq)]
pub enum Statement {
    Assign {
        name: usize,
        value: Operation,
    },
    /// The branch of IF, then those of ELSIF.
    If(Vec<Branch>),
}

#[derive(Clone, Debug, PartialEq, Eq)]
pub struct Branch {
    pub condition: Operation,
    pub statements: Vec<Statement>,
}

/// An expression of numbers, or of BOOL.
#[derive(Clone, Debug, PartialEq, Eq)]
pub enum Operation {
    Number(i64),
    Name(usize),
    Minus(Box<Operation>),
    Not(Box<Operation>),
    Two {
        sign: Sign,
        left: Box<Operation>,
        right: Box<Operation>,
    },
}

/// The two-sided signs.
#[derive(Clone, Copy, Debug, PartialEq, Eq)]
pub enum Sign {
    Or,
    And,
    Equal,
    Unequal,
    Less,
    LessEqual,
    Greater,
    GreaterEqual,
    Add,
    Subtract,
    Multiply,
    Divide,
    Mod,
}

/// How much of AND and OR is worked out: the standard lets an operand be left out that the
/// other one decides without.
#[derive(Clone, Copy, Debug, PartialEq, Eq)]
pub enum Evaluation {
    Both,
    AsNeeded,
}

#[derive(Clone, Copy, Debug, PartialEq, Eq)]
enum Value {
    Dint(i32),
    Bool(bool),
}

impl Unit {
    /// The place of a name; "a to z read as A to Z".
    pub fn find(&self, name: &str) -> Option<usize> {
        self.names
            .iter()
            .position(|declared| declared.name.eq_ignore_ascii_case(name))
    }

    /// The values after one run of the statements, or None where an expression has no
    /// value.
    pub fn run(&self, values: &[i32], evaluation: Evaluation) -> Option<Vec<i32>> {
        let mut run = Run {
            values: values.to_vec(),
            evaluation,
        };
        run.statements(&self.statements)?;
        Some(run.values)
    }
}

struct Run {
    values: Vec<i32>,
    evaluation: Evaluation,
}

impl Run {
    fn statements(&mut self, list: &[Statement]) -> Option<()> {
        for statement in list {
            match statement {
                Statement::Assign { name, value } => {
                    let Value::Dint(value) = self.value(value)? else {
                        return None;
                    };
                    self.values[*name] = value;
                }
                Statement::If(branches) => self.first_true(branches)?,
            }
        }
        Some(())
    }

    /// IF takes the first true branch and works out no later condition.
    fn first_true(&mut self, branches: &[Branch]) -> Option<()> {
        for branch in branches {
            if self.value(&branch.condition)? == Value::Bool(true) {
                return self.statements(&branch.statements);
            }
        }
        Some(())
    }

    fn value(&self, operation: &Operation) -> Option<Value> {
        match operation {
            Operation::Number(number) => dint(*number),
            Operation::Name(name) => Some(Value::Dint(self.values[*name])),
            Operation::Minus(inner) => match self.value(inner)? {
                Value::Dint(value) => dint(-i64::from(value)),
                Value::Bool(_) => None,
            },
            Operation::Not(inner) => match self.value(inner)? {
                Value::Dint(_) => None,
                Value::Bool(value) => Some(Value::Bool(!value)),
            },
            Operation::Two { sign, left, right } => self.two(*sign, left, right),
        }
    }

    fn two(&self, sign: Sign, left: &Operation, right: &Operation) -> Option<Value> {
        let left = self.value(left)?;
        let decides = match sign {
            Sign::Or => left == Value::Bool(true),
            Sign::And => left == Value::Bool(false),
            _ => false,
        };
        if decides && self.evaluation == Evaluation::AsNeeded {
            return Some(left);
        }
        match (left, self.value(right)?) {
            (Value::Bool(left), Value::Bool(right)) => logic(sign, left, right),
            (Value::Dint(left), Value::Dint(right)) => arithmetic(sign, left.into(), right.into()),
            _ => None,
        }
    }
}

fn logic(sign: Sign, left: bool, right: bool) -> Option<Value> {
    match sign {
        Sign::Or => Some(Value::Bool(left || right)),
        Sign::And => Some(Value::Bool(left && right)),
        _ => None,
    }
}

/// Division cuts toward zero and has no value by zero; MOD gives "0 when the divisor is 0"
/// (A.5).
fn arithmetic(sign: Sign, left: i64, right: i64) -> Option<Value> {
    match sign {
        Sign::Or | Sign::And => None,
        Sign::Equal => Some(Value::Bool(left == right)),
        Sign::Unequal => Some(Value::Bool(left != right)),
        Sign::Less => Some(Value::Bool(left < right)),
        Sign::LessEqual => Some(Value::Bool(left <= right)),
        Sign::Greater => Some(Value::Bool(left > right)),
        Sign::GreaterEqual => Some(Value::Bool(left >= right)),
        Sign::Add => dint(left + right),
        Sign::Subtract => dint(left - right),
        Sign::Multiply => dint(left * right),
        Sign::Divide => dint(left.checked_div(right)?),
        Sign::Mod => dint(left.checked_rem(right).unwrap_or(0)),
    }
}

/// A result outside DINT has no value.
fn dint(whole: i64) -> Option<Value> {
    i32::try_from(whole).ok().map(Value::Dint)
}
