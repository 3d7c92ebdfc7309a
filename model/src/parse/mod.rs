//! From a text to its tree, with the refusals 1 to 8.
//!
//! "Checks of a text go token by token, in number order at each token; the first
//! found is answered with the byte place of that token (end of text: its length)."
//!
//! Every token is looked at once, and `take` is called when the checks 1 to 6
//! allow it. `take` makes check 7; check 8 follows it, at the same place.

mod rules;
mod timers;
mod values;
mod watches;

use crate::program::{Name, Program};
use crate::token::{next_token, same_names, Kind, Token};
use crate::{Refusal, NAMES, NAME_BYTES};

/// What `take` does with the spelling of a token.
#[derive(Clone, Copy, PartialEq, Eq)]
enum List {
    /// Nothing.
    Off,
    /// Keeps it: the token belongs to the conditions of a change formula.
    Keep,
    /// Compares it with the kept one: inside `~( )` of a no-change formula.
    Compare,
}

struct Parser<'t> {
    text: &'t [u8],
    token: Token<'t>,
    program: Program<'t>,
    /// Whether a variable's rule stands earlier, by id.
    ruled: [bool; NAMES],
    /// Counted brackets open now.
    open: usize,
    list: List,
    /// Tokens wanted inside `~( )`, its closing bracket included.
    wanted: Vec<Token<'t>>,
    /// How many of them have been compared.
    compared: usize,
    /// Inside a watch formula.
    watching: bool,
}

/// Reads a text of at most 32,768 bytes.
pub fn parse(text: &[u8]) -> Result<Program<'_>, Refusal> {
    let mut parser = Parser {
        text,
        token: next_token(text, 0),
        program: Program {
            names: Vec::new(),
            inputs: 0,
            timers: Vec::new(),
            rules: Vec::new(),
            watches: Vec::new(),
        },
        ruled: [false; NAMES],
        open: 0,
        list: List::Off,
        wanted: Vec::new(),
        compared: 0,
        watching: false,
    };
    parser.whole_text()?;
    Ok(parser.program)
}

impl<'t> Parser<'t> {
    /// "All inputs, then all variables"; "Then the rules, in the order of work".
    fn whole_text(&mut self) -> Result<(), Refusal> {
        while self.token.kind == Kind::Input {
            self.take()?;
            self.declaration()?;
            self.program.inputs += 1;
        }
        while self.token.kind == Kind::Var {
            self.take()?;
            self.declaration()?;
        }
        // "`timer t of w limit N;` stands after the variables"
        while self.token.kind == Kind::Timer {
            self.take()?;
            self.timer()?;
        }
        while !matches!(self.token.kind, Kind::End | Kind::Watch) {
            self.rule()?;
        }
        while self.token.kind == Kind::Watch {
            self.watch()?;
        }
        // A watch ends the rules.
        self.allow(self.token.kind == Kind::End)?;
        // "6 ... or a variable without rule (end of text)"
        if !self.all_ruled() {
            return Err(self.refuse(6));
        }
        Ok(())
    }

    /// A timer has no rule of its own; it is worked after that of its w.
    fn all_ruled(&self) -> bool {
        self.ruled[self.program.inputs..self.program.names.len()]
            .iter()
            .all(|&ruled| ruled)
    }

    /// `go 0..1 init 0;`, after `input` or `var`.
    fn declaration(&mut self) -> Result<(), Refusal> {
        let spelling = self.declared_name()?;
        let low = self.bound(i32::MIN, i32::MAX)?;
        self.expect(Kind::DotDot)?;
        // "low over high (at high's digits)"
        let high = self.bound(low, i32::MAX)?;
        let start = self.starting_value(low, high)?;
        self.program.names.push(Name {
            spelling,
            low,
            high,
            start,
        });
        Ok(())
    }

    /// "4 unknown or twice declared name", then "8 ... 65th or over-long name".
    fn declared_name(&mut self) -> Result<&'t [u8], Refusal> {
        self.allow(self.token.kind == Kind::Name)?;
        let spelling = self.token.name();
        if self.find(spelling).is_some() {
            return Err(self.refuse(4));
        }
        if spelling.len() > NAME_BYTES || self.program.names.len() == NAMES {
            return Err(self.refuse(8));
        }
        self.take()?;
        Ok(spelling)
    }

    /// "Bounds and start may carry `-`"; 3 at the digits if the value is not in low..high.
    fn bound(&mut self, low: i32, high: i32) -> Result<i32, Refusal> {
        let negative = self.token.kind == Kind::Minus;
        if negative {
            self.take()?;
        }
        self.allow(self.token.kind == Kind::Digits)?;
        let size = digits(self.token.spelling);
        let value = if negative { -size } else { size };
        if value < i64::from(low) || value > i64::from(high) {
            return Err(self.refuse(3));
        }
        self.take()?;
        Ok(value as i32)
    }

    /// `init 0;` or `;`: "An absent `init` means 0", "start outside (at start's digits,
    /// or at `;` if absent)".
    fn starting_value(&mut self, low: i32, high: i32) -> Result<i32, Refusal> {
        if self.token.kind == Kind::Init {
            self.take()?;
            let start = self.bound(low, high)?;
            self.expect(Kind::Semicolon)?;
            return Ok(start);
        }
        self.allow(self.token.kind == Kind::Semicolon)?;
        if low > 0 || high < 0 {
            return Err(self.refuse(3));
        }
        self.take()?;
        Ok(0)
    }

    /// A refusal at the present token.
    fn refuse(&self, number: u8) -> Refusal {
        Refusal::new(number, self.token.place)
    }

    /// Checks 1 and 2 of the present token, `allowed` by the grammar or not.
    /// The grammar allows a bad token nowhere.
    fn allow(&self, allowed: bool) -> Result<(), Refusal> {
        match (self.token.kind, allowed) {
            (Kind::Bad, _) => Err(self.refuse(1)),
            (_, false) => Err(self.refuse(2)),
            (_, true) => Ok(()),
        }
    }

    /// Takes a token of this kind, the only one allowed here.
    fn expect(&mut self, kind: Kind) -> Result<(), Refusal> {
        self.allow(self.token.kind == kind)?;
        self.take()
    }

    /// Goes to the next token; before that "7 first token inside `~( )` ... that
    /// isn't the one wanted".
    fn take(&mut self) -> Result<(), Refusal> {
        match self.list {
            List::Off => {}
            List::Keep => self.wanted.push(self.token),
            List::Compare => {
                let wanted = self.wanted.get(self.compared);
                if !wanted.is_some_and(|wanted| wanted.agrees(&self.token)) {
                    return Err(self.refuse(7));
                }
                self.compared += 1;
            }
        }
        let end = self.token.place + self.token.spelling.len();
        self.token = next_token(self.text, end);
        Ok(())
    }

    /// The id of a name.
    fn find(&self, spelling: &[u8]) -> Option<usize> {
        self.program
            .names
            .iter()
            .position(|name| same_names(name.spelling, spelling))
    }
}

/// The value of a run of digits; everything above 2^32 gives 2^32 or more.
fn digits(spelling: &[u8]) -> i64 {
    spelling.iter().fold(0, |value, digit| {
        (value * 10 + i64::from(digit - b'0')).min(1 << 40)
    })
}
