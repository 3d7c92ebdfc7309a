//! From bytes to a unit: tokens, then the standard's precedence.

use super::{Branch, Declared, Operation, Sign, Statement, Unit};

/// The keywords, read in any letter case.
const KEYWORDS: [&str; 12] = [
    "VAR_INPUT",
    "VAR",
    "END_VAR",
    "DINT",
    "IF",
    "THEN",
    "ELSIF",
    "END_IF",
    "AND",
    "OR",
    "NOT",
    "MOD",
];

/// Signs, the longer ones first: tokens are read by longest match.
const SIGNS: [&str; 15] = [
    ":=", "<=", ">=", "<>", ":", ";", "(", ")", "<", ">", "=", "+", "-", "*", "/",
];

#[derive(Clone, Debug, PartialEq, Eq)]
enum Token {
    /// A keyword in capitals, or a sign.
    Word(&'static str),
    Identifier(String),
    Digits(String),
}

/// The unit that the bytes spell, or None if they spell none.
pub fn read(bytes: &[u8]) -> Option<Unit> {
    let text = std::str::from_utf8(bytes).ok()?;
    let mut reader = Reader {
        tokens: tokens(text)?,
        at: 0,
        unit: Unit {
            names: Vec::new(),
            inputs: 0,
            statements: Vec::new(),
        },
    };
    reader.section("VAR_INPUT")?;
    reader.unit.inputs = reader.unit.names.len();
    reader.section("VAR")?;
    let statements = reader.statements()?;
    if reader.at < reader.tokens.len() {
        return None;
    }
    Some(Unit {
        statements,
        ..reader.unit
    })
}

fn tokens(text: &str) -> Option<Vec<Token>> {
    let mut list = Vec::new();
    let mut rest = text.trim_start_matches([' ', '\t', '\r', '\n']);
    while let Some(first) = rest.chars().next() {
        let (token, length) = match first {
            'a'..='z' | 'A'..='Z' | '_' => word(rest)?,
            '0'..='9' => digits(rest),
            _ => {
                let sign = SIGNS.into_iter().find(|sign| rest.starts_with(sign))?;
                (Token::Word(sign), sign.len())
            }
        };
        list.push(token);
        rest = rest[length..].trim_start_matches([' ', '\t', '\r', '\n']);
    }
    Some(list)
}

/// The standard's production:
/// identifier ::= (letter | ('_' (letter | digit))) {['_'] (letter | digit)}
fn is_identifier(spelled: &[u8]) -> bool {
    let mut rest = match spelled {
        [b'_', b, rest @ ..] if b.is_ascii_alphanumeric() => rest,
        [b, rest @ ..] if b.is_ascii_alphabetic() => rest,
        _ => return false,
    };
    loop {
        rest = match rest {
            [] => return true,
            [b'_', b, more @ ..] | [b, more @ ..] if b.is_ascii_alphanumeric() => more,
            _ => return false,
        };
    }
}

/// A keyword or an identifier.
fn word(rest: &str) -> Option<(Token, usize)> {
    let inside = |c: char| c.is_ascii_alphanumeric() || c == '_';
    let length = rest.find(|c| !inside(c)).unwrap_or(rest.len());
    let spelled = &rest[..length];
    if !is_identifier(spelled.as_bytes()) {
        return None;
    }
    let keyword = KEYWORDS
        .into_iter()
        .find(|word| word.eq_ignore_ascii_case(spelled));
    let token = match keyword {
        Some(keyword) => Token::Word(keyword),
        None => Token::Identifier(spelled.to_owned()),
    };
    Some((token, length))
}

fn digits(rest: &str) -> (Token, usize) {
    let end = rest.find(|c: char| !c.is_ascii_digit());
    let length = end.unwrap_or(rest.len());
    (Token::Digits(rest[..length].to_owned()), length)
}

/// The least precedence, that of OR.
const LOOSEST: u8 = 1;

/// A two-sided sign and its precedence, a greater one binds closer: OR, AND, equality,
/// order, sums, products.
fn two_sided(token: &Token) -> Option<(Sign, u8)> {
    let Token::Word(word) = token else {
        return None;
    };
    Some(match *word {
        "OR" => (Sign::Or, LOOSEST),
        "AND" => (Sign::And, 2),
        "=" => (Sign::Equal, 3),
        "<>" => (Sign::Unequal, 3),
        "<" => (Sign::Less, 4),
        "<=" => (Sign::LessEqual, 4),
        ">" => (Sign::Greater, 4),
        ">=" => (Sign::GreaterEqual, 4),
        "+" => (Sign::Add, 5),
        "-" => (Sign::Subtract, 5),
        "*" => (Sign::Multiply, 6),
        "/" => (Sign::Divide, 6),
        "MOD" => (Sign::Mod, 6),
        _ => return None,
    })
}

/// What an expression is of.
#[derive(Clone, Copy, PartialEq, Eq)]
enum Sort {
    Dint,
    Bool,
}

/// The sort of an operation, or None if an operand is of the wrong one.
fn sort(operation: &Operation) -> Option<Sort> {
    let (operands, from, to): (&[&Operation], Sort, Sort) = match operation {
        Operation::Number(_) | Operation::Name(_) => return Some(Sort::Dint),
        Operation::Minus(inner) => (&[inner], Sort::Dint, Sort::Dint),
        Operation::Not(inner) => (&[inner], Sort::Bool, Sort::Bool),
        Operation::Two { sign, left, right } => {
            let (from, to) = match sign {
                Sign::Or | Sign::And => (Sort::Bool, Sort::Bool),
                Sign::Add | Sign::Subtract | Sign::Multiply | Sign::Divide | Sign::Mod => {
                    (Sort::Dint, Sort::Dint)
                }
                _ => (Sort::Dint, Sort::Bool),
            };
            (&[left, right], from, to)
        }
    };
    let right = operands.iter().all(|operand| sort(operand) == Some(from));
    right.then_some(to)
}

struct Reader {
    tokens: Vec<Token>,
    at: usize,
    unit: Unit,
}

impl Reader {
    fn sees(&self, word: &str) -> bool {
        matches!(self.tokens.get(self.at), Some(Token::Word(found)) if *found == word)
    }

    /// Goes on over this word if it is there.
    fn skips(&mut self, word: &str) -> bool {
        let sees = self.sees(word);
        self.at += usize::from(sees);
        sees
    }

    fn expect(&mut self, word: &str) -> Option<()> {
        self.skips(word).then_some(())
    }

    fn next(&mut self) -> Option<Token> {
        let token = self.tokens.get(self.at).cloned();
        self.at += 1;
        token
    }

    /// A section of declarations, if it is there: `name : DINT := start;`.
    fn section(&mut self, word: &str) -> Option<()> {
        if !self.skips(word) {
            return Some(());
        }
        while !self.skips("END_VAR") {
            let Some(Token::Identifier(name)) = self.next() else {
                return None;
            };
            self.expect(":")?;
            self.expect("DINT")?;
            self.expect(":=")?;
            let start = self.start()?;
            self.expect(";")?;
            // A name is declared once.
            if self.unit.find(&name).is_some() {
                return None;
            }
            self.unit.names.push(Declared { name, start });
        }
        Some(())
    }

    /// A number, with its sign.
    fn start(&mut self) -> Option<i32> {
        let negative = self.skips("-");
        let size = self.number()?;
        i32::try_from(if negative { -size } else { size }).ok()
    }

    fn number(&mut self) -> Option<i64> {
        match self.next()? {
            Token::Digits(digits) => digits.parse().ok(),
            _ => None,
        }
    }

    /// Statements up to a word that ends them.
    fn statements(&mut self) -> Option<Vec<Statement>> {
        let mut list = Vec::new();
        let ends = |reader: &Reader| reader.sees("ELSIF") || reader.sees("END_IF");
        while self.at < self.tokens.len() && !ends(self) {
            let statement = match self.skips("IF") {
                true => self.branches()?,
                false => self.assignment()?,
            };
            self.expect(";")?;
            list.push(statement);
        }
        Some(list)
    }

    /// `name := expression`; an input is not assigned to.
    fn assignment(&mut self) -> Option<Statement> {
        let name = self.next().and_then(|token| self.declared(&token))?;
        if name < self.unit.inputs {
            return None;
        }
        self.expect(":=")?;
        let value = self.operation(LOOSEST)?;
        (sort(&value) == Some(Sort::Dint)).then_some(Statement::Assign { name, value })
    }

    /// After IF: the branches up to END_IF.
    fn branches(&mut self) -> Option<Statement> {
        let mut branches = Vec::new();
        loop {
            let condition = self.operation(LOOSEST)?;
            if sort(&condition) != Some(Sort::Bool) {
                return None;
            }
            self.expect("THEN")?;
            let statements = self.statements()?;
            branches.push(Branch {
                condition,
                statements,
            });
            if self.skips("END_IF") {
                return Some(Statement::If(branches));
            }
            self.expect("ELSIF")?;
        }
    }

    fn declared(&self, token: &Token) -> Option<usize> {
        match token {
            Token::Identifier(name) => self.unit.find(name),
            _ => None,
        }
    }

    /// An expression whose two-sided signs outside brackets have at least this precedence;
    /// signs of one precedence go from left to right.
    fn operation(&mut self, least: u8) -> Option<Operation> {
        let mut left = self.unary()?;
        while let Some((sign, precedence)) = self.tokens.get(self.at).and_then(two_sided) {
            if precedence < least {
                break;
            }
            self.at += 1;
            let right = self.operation(precedence + 1)?;
            left = Operation::Two {
                sign,
                left: Box::new(left),
                right: Box::new(right),
            };
        }
        Some(left)
    }

    /// At most one `-` or NOT, which bind closest, before a number, a name or an expression
    /// in brackets.
    fn unary(&mut self) -> Option<Operation> {
        if self.skips("-") {
            return Some(Operation::Minus(Box::new(self.primary()?)));
        }
        if self.skips("NOT") {
            return Some(Operation::Not(Box::new(self.primary()?)));
        }
        self.primary()
    }

    fn primary(&mut self) -> Option<Operation> {
        if self.skips("(") {
            let inner = self.operation(LOOSEST)?;
            self.expect(")")?;
            return Some(inner);
        }
        if let Some(Token::Digits(_)) = self.tokens.get(self.at) {
            return self.number().map(Operation::Number);
        }
        let token = self.next()?;
        self.declared(&token).map(Operation::Name)
    }
}
