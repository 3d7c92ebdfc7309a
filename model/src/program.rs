//! The tree of an accepted text. It has the shape of the grammar:
//! "`+ -` over `* / mod` over factors", "`|` over `&` over atoms".

use crate::check::Range;

/// A declared name; its id is its place in `Program::names`.
#[derive(Clone, Copy, Debug, PartialEq, Eq)]
pub struct Name<'t> {
    /// "a name is the part of the text itself that spells it"
    pub spelling: &'t [u8],
    pub low: i32,
    pub high: i32,
    pub start: i32,
}

/// An accepted text. The first `inputs` names are the inputs, the others the variables.
#[derive(Clone, Debug, PartialEq, Eq)]
pub struct Program<'t> {
    pub names: Vec<Name<'t>>,
    pub inputs: usize,
    /// The timers (A.7), by id: the last of the names.
    pub timers: Vec<Timer>,
    /// "Then the rules, in the order of work; every variable has exactly one."
    pub rules: Vec<Rule>,
    /// The watch formulas (A.13), in text order.
    pub watches: Vec<Watch>,
}

/// `watch: G([c]);`, or with `then` `watch: G([c] -> X([c]));` (A.13)
#[derive(Clone, Debug, PartialEq, Eq)]
pub struct Watch {
    pub first: Condition,
    pub then: Option<Condition>,
}

/// `timer t of w limit N;` (A.7)
#[derive(Clone, Copy, Debug, PartialEq, Eq)]
pub struct Timer {
    /// The id of t.
    pub id: usize,
    /// The id of w.
    pub watched: usize,
    /// N, in milliseconds.
    pub limit: i32,
}

/// The ranges of a state's values: "Each timer adds its elapsed time, starting at 0, after
/// the values in the state, by timer id", from 0 to N.
pub(crate) fn state_ranges(names: &[Range], timers: &[Timer]) -> Vec<Range> {
    let elapsed = timers.iter().map(|timer| Range {
        low: 0,
        high: timer.limit,
        start: 0,
    });
    names.iter().copied().chain(elapsed).collect()
}

/// The ranges of a row's values: "each row ends with the milliseconds since the last
/// accepted scan if there is any timer".
pub(crate) fn row_ranges(inputs: &[Range], timers: &[Timer]) -> Vec<Range> {
    let milliseconds = Range {
        low: 0,
        high: i32::MAX,
        start: 0,
    };
    let last = timers.first().map(|_| milliseconds);
    inputs.iter().copied().chain(last).collect()
}

impl Program<'_> {
    /// Low, high and start of each name in declared order.
    pub fn ranges(&self) -> Vec<Range> {
        self.names
            .iter()
            .map(|name| Range {
                low: name.low,
                high: name.high,
                start: name.start,
            })
            .collect()
    }

    /// Low, high and start of each value of a state.
    pub fn state_ranges(&self) -> Vec<Range> {
        state_ranges(&self.ranges(), &self.timers)
    }

    /// Low and high of each value of a row.
    pub fn row_ranges(&self) -> Vec<Range> {
        row_ranges(&self.ranges()[..self.inputs], &self.timers)
    }

    pub fn state_length(&self) -> usize {
        self.names.len() + self.timers.len()
    }

    pub fn row_length(&self) -> usize {
        self.inputs + usize::from(!self.timers.is_empty())
    }

    /// The declared starts, then elapsed times of 0.
    pub fn starts(&self) -> Vec<i32> {
        let ranges = self.state_ranges();
        ranges.iter().map(|range| range.start).collect()
    }
}

#[derive(Clone, Debug, PartialEq, Eq)]
pub struct Rule {
    /// Id of the variable.
    pub variable: usize,
    pub body: Body,
    /// Of a pair (A.6), how many of its cases are rising; all others are falling. "A pair is
    /// read as the change formula over both lists, rising first, with its matching no-change
    /// formula", and that is its body.
    pub rising: Option<usize>,
}

#[derive(Clone, Debug, PartialEq, Eq)]
pub enum Body {
    /// `v: GX(v = (e));`
    Function(Expression),
    /// A change formula (`cases`) and its no-change formula (`unchanged`,
    /// the list of conditions as it stands in that second formula).
    Change {
        cases: Vec<Case>,
        unchanged: Vec<Condition>,
    },
}

/// `[c] & v = (e)`
#[derive(Clone, Debug, PartialEq, Eq)]
pub struct Case {
    pub condition: Condition,
    pub expression: Expression,
}

/// "`|` over `&` over atoms": the outer list is joined by `|`, each inner one by `&`.
#[derive(Clone, Debug, PartialEq, Eq)]
pub struct Condition {
    pub any: Vec<Vec<Atom>>,
}

#[derive(Clone, Debug, PartialEq, Eq)]
pub enum Atom {
    Compare {
        relation: Relation,
        left: Expression,
        right: Expression,
    },
    /// `[c]`, "with at most one `~` before it".
    Bracket {
        negated: bool,
        condition: Box<Condition>,
    },
}

#[derive(Clone, Copy, Debug, PartialEq, Eq)]
pub enum Relation {
    Equal,
    Unequal,
    Less,
    LessEqual,
    Greater,
    GreaterEqual,
}

/// Terms joined by `+` and `-`, "left to right".
#[derive(Clone, Debug, PartialEq, Eq)]
pub struct Expression {
    pub first: Term,
    pub rest: Vec<(Sum, Term)>,
}

/// Factors joined by `*`, `/` and `mod`, "left to right".
#[derive(Clone, Debug, PartialEq, Eq)]
pub struct Term {
    pub first: Factor,
    pub rest: Vec<(Product, Factor)>,
}

#[derive(Clone, Copy, Debug, PartialEq, Eq)]
pub enum Sum {
    Add,
    Subtract,
}

#[derive(Clone, Copy, Debug, PartialEq, Eq)]
pub enum Product {
    Multiply,
    Divide,
    Modulo,
}

/// "at most one `-`, then a number up to 2,147,483,647, a name, `_`name or `(e)`"
#[derive(Clone, Debug, PartialEq, Eq)]
pub struct Factor {
    pub negated: bool,
    pub operand: Operand,
}

#[derive(Clone, Debug, PartialEq, Eq)]
pub enum Operand {
    Number(i32),
    Current(usize),
    Previous(usize),
    Bracket(Box<Expression>),
}
