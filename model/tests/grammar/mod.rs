//! A second reader of texts, for comparison with the parser: the grammar is a table of
//! productions, and all of them are tried at each token. It keeps no tree.

use std::collections::HashMap;
use std::sync::OnceLock;

use rolvenko_model::features::in_force;
use rolvenko_model::token::{next_token, Kind, Token};

/// The grammar. `'x'` is the token x; `/role` says what else is checked at the token.
const GRAMMAR: &str = "
Text = Inputs Variables Timers Rules Watches END/end
Watches = 'watch'/watch ':' 'G' '(' '[' Condition ']' Following ';' Watches
Watches =
Following = ')'
Following = '->' 'X' '(' '[' Condition ']' ')' ')'
Inputs = 'input' Declaration Inputs
Inputs =
Variables = 'var' Declaration Variables
Variables =
Timers = 'timer' NAME/declared 'of'/timed NAME/watched 'limit' DIGITS/limit ';' Timers
Timers =
Rules = Rule Rules
Rules =
Declaration = NAME/declared Sign DIGITS/low '..' Sign DIGITS/high Start
Sign = '-'/minus
Sign =
Start = 'init' Sign DIGITS/start ';'/declare
Start = ';'/absent
Rule = NAME/rule ':' 'GX' '(' Body
Rule = NAME/rule Pair
Pair = '+' ':' 'GX' '(' NAME/again '>' PREVIOUS/again '->' Cases ';' Falling
Falling = NAME/again '-' ':' 'GX' '(' NAME/again '<' PREVIOUS/again '->' Cases ';'/ruled
Body = NAME/again '=' '(' Expression ')' ')' ';'/ruled
Body = '~' '(' Unchanged ')' '->' Cases ';' NAME/again ':' 'GX' '(' Second
Second = Unchanged '->' '~' '('/compare List ')' ';'/ruled
Unchanged = NAME/again '=' PREVIOUS/again
Cases = '['/case Condition ']'/value '&' NAME/again '=' '(' Expression ')'/keep MoreCases
MoreCases = '|' Cases
MoreCases = ')'/value
List = '[' Condition ']' MoreList
MoreList = '|' List
MoreList = ')'/compared
Condition = Conjunction MoreConjunctions
MoreConjunctions = '|' Condition
MoreConjunctions =
Conjunction = Atom MoreAtoms
MoreAtoms = '&' Conjunction
MoreAtoms =
Atom = Expression Relation Expression
Atom = Bracketed
Atom = '~' Bracketed
Bracketed = '['/open Condition ']'/close
Relation = '='
Relation = '<>'
Relation = '<'
Relation = '<='
Relation = '>'
Relation = '>='
Expression = Term MoreTerms
MoreTerms = '+' Expression
MoreTerms = '-' Expression
MoreTerms =
Term = Factor MoreFactors
MoreFactors = '*' Term
MoreFactors = '/' Term
MoreFactors = 'mod' Term
MoreFactors =
Factor = Operand
Factor = '-' Operand
Operand = DIGITS/number
Operand = NAME/used
Operand = PREVIOUS/used
Operand = '('/open Expression ')'/close
";

/// Symbols still to be read, the next one last.
type Stack = Vec<&'static str>;

/// What is known of a name.
struct Entry {
    spelling: Vec<u8>,
    /// The word of its declaration.
    word: Vec<u8>,
    /// It is of range 0..1.
    bit: bool,
    /// Its rule stands earlier, or that of a timer's w.
    ruled: bool,
    /// The w of a timer.
    watched: Option<usize>,
}

/// What is known of the text so far, but for the grammar.
#[derive(Default)]
struct Known {
    names: Vec<Entry>,
    new_name: Vec<u8>,
    word: Vec<u8>,
    watches: usize,
    minus: bool,
    low: i128,
    high: i128,
    rule: usize,
    cases: usize,
    open: usize,
    keeping: bool,
    comparing: bool,
    list: Vec<Vec<u8>>,
    next: usize,
}

/// Number and place of the refusal of a text of at most 32,768 bytes.
pub fn read(text: &[u8]) -> Option<(u8, usize)> {
    let mut stacks: Vec<Stack> = vec![vec!["Text"]];
    let mut known = Known::default();
    let mut at = 0;
    loop {
        let token = next_token(text, at);
        if token.kind == Kind::Bad {
            return Some((1, token.place));
        }
        let again = known.names.get(known.rule).map(|name| &name.spelling[..]);
        let (next, role) = advance(&stacks, &token, again);
        if next.is_empty() {
            return Some((2, token.place));
        }
        if let Some(number) = known.refusal(role, &token) {
            return Some((number, token.place));
        }
        if token.kind == Kind::End {
            return None;
        }
        known.learn(role, &token);
        stacks = next;
        at = token.place + token.spelling.len();
    }
}

/// Whether two spellings are the same: by A.2 in any case. Words and symbols that the
/// grammar allows are spelled in one way only.
fn same(left: &[u8], right: &[u8]) -> bool {
    match in_force().names_without_case {
        true => left.to_ascii_uppercase() == right.to_ascii_uppercase(),
        false => left == right,
    }
}

/// All stacks left after the token, and its role.
fn advance(stacks: &[Stack], token: &Token, again: Option<&[u8]>) -> (Vec<Stack>, &'static str) {
    let mut work = stacks.to_vec();
    let mut next: Vec<Stack> = Vec::new();
    let mut found = "";
    while let Some(mut stack) = work.pop() {
        let Some(symbol) = stack.pop() else { continue };
        if symbol == "Pair" && !in_force().pairs {
            continue;
        }
        let bodies = productions(symbol);
        if bodies.is_empty() {
            let (terminal, role) = split(symbol);
            let repeated = role != "again" || again.is_some_and(|again| same(again, token.name()));
            if is(terminal, token) && repeated && !next.contains(&stack) {
                assert!(next.is_empty() || found == role, "two roles");
                found = role;
                next.push(stack.clone());
            }
        }
        for body in bodies {
            let mut longer = stack.clone();
            longer.extend(body.iter().rev());
            work.push(longer);
        }
    }
    (next, found)
}

/// The bodies of a symbol's productions; a terminal has none.
fn productions(symbol: &str) -> &'static [Vec<&'static str>] {
    static TABLE: OnceLock<HashMap<&str, Vec<Vec<&str>>>> = OnceLock::new();
    let table = TABLE.get_or_init(|| {
        let mut table: HashMap<&str, Vec<Vec<&str>>> = HashMap::new();
        for (head, body) in GRAMMAR.lines().filter_map(|line| line.split_once(" =")) {
            let symbols = body.split_whitespace().collect();
            table.entry(head).or_default().push(symbols);
        }
        table
    });
    table.get(symbol).map_or(&[], |bodies| bodies)
}

/// The terminal and the role of a symbol.
fn split(symbol: &'static str) -> (&'static str, &'static str) {
    match symbol.rfind('/') {
        Some(slash) if symbol != "'/'" => (&symbol[..slash], &symbol[slash + 1..]),
        _ => (symbol, ""),
    }
}

fn is(terminal: &str, token: &Token) -> bool {
    match terminal {
        "NAME" => token.kind == Kind::Name,
        "PREVIOUS" => token.kind == Kind::Previous,
        "DIGITS" => token.kind == Kind::Digits,
        "END" => token.kind == Kind::End,
        quoted => {
            let spelled = &quoted.as_bytes()[1..quoted.len() - 1];
            token.kind != Kind::Name && token.spelling == spelled
        }
    }
}

/// The value of digits; a long run without zeros before it is only known to be large.
fn value(token: &Token) -> i128 {
    let digits = String::from_utf8_lossy(token.spelling);
    let digits = digits.trim_start_matches('0');
    match digits.len() {
        0 => 0,
        1..=30 => digits.parse().expect("digits"),
        _ => i128::MAX,
    }
}

impl Known {
    fn signed(&self, token: &Token) -> i128 {
        if self.minus {
            -value(token)
        } else {
            value(token)
        }
    }

    fn id(&self, name: &[u8]) -> Option<usize> {
        self.names
            .iter()
            .position(|known| same(&known.spelling, name))
    }

    /// Checks 3 to 8, 23 and 30, in number order.
    fn refusal(&self, role: &str, token: &Token) -> Option<u8> {
        let over_long = token.name().len() > 16;
        let id = self.id(token.name());
        let (least, most) = (-(1i128 << 31), (1i128 << 31) - 1);
        let out_of_limit = match role {
            "low" => !(least..=most).contains(&self.signed(token)),
            "high" => !(self.low..=most).contains(&self.signed(token)),
            "start" => !(self.low..=self.high).contains(&self.signed(token)),
            "absent" => !(self.low..=self.high).contains(&0),
            "number" => value(token) > most,
            "limit" => !(1..=most).contains(&value(token)),
            _ => false,
        };
        let uses_name = matches!(role, "rule" | "used" | "watched");
        let unknown = uses_name && id.is_none() && !over_long;
        let twice = role == "declared" && id.is_some();
        let known = id.map(|id| &self.names[id]);
        let early = role == "used"
            && token.kind == Kind::Name
            && self.watches == 0
            && known.is_some_and(|name| name.word != b"input" && !name.ruled);
        let no_rule = role == "rule" && known.is_some_and(|name| name.word != b"var" || name.ruled);
        let unruled = |name: &Entry| name.word == b"var" && !name.ruled;
        let missing = role == "end" && self.names.iter().any(unruled);
        let unwatchable =
            role == "watched" && known.is_some_and(|name| name.word != b"var" || !name.bit);
        let wanted = self.list.get(self.next);
        let other = self.comparing && !wanted.is_some_and(|s| same(s, token.spelling));
        let too_many = match role {
            "declared" => over_long || self.names.len() == 64,
            "rule" | "used" | "watched" => over_long,
            "open" => self.open == 16,
            "case" => self.cases == 32,
            _ => false,
        };
        let checks = [
            (3, out_of_limit),
            (4, unknown || twice),
            (5, early),
            (6, no_rule || missing),
            (7, other),
            (8, too_many),
            (23, unwatchable),
            (30, role == "watch" && self.watches == 16),
        ];
        checks.iter().find(|check| check.1).map(|check| check.0)
    }

    /// What the accepted token adds.
    fn learn(&mut self, role: &str, token: &Token) {
        self.keeping |= role == "case";
        if self.keeping {
            self.list.push(token.spelling.to_vec());
        }
        self.next += usize::from(self.comparing);
        match role {
            "declared" => self.new_name = token.name().to_vec(),
            "low" => self.low = self.signed(token),
            "high" => self.high = self.signed(token),
            "declare" | "absent" => {
                let bit = (self.low, self.high) == (0, 1);
                self.declare(bit);
            }
            "timed" => self.declare(true),
            "watched" => {
                let watched = self.id(token.name());
                self.names.last_mut().expect("a timer").watched = watched;
            }
            "rule" => {
                self.rule = self.id(token.name()).expect("known name");
                self.cases = 0;
                self.list.clear();
            }
            "ruled" => {
                self.names[self.rule].ruled = true;
                let timers = self.names.iter_mut();
                let own = timers.filter(|name| name.watched == Some(self.rule));
                own.for_each(|timer| timer.ruled = true);
            }
            "case" => self.cases += 1,
            "watch" => self.watches += 1,
            "value" => self.keeping = false,
            "keep" => self.keeping = true,
            "compare" => {
                self.comparing = true;
                self.next = 0;
            }
            "compared" => self.comparing = false,
            "open" => self.open += 1,
            "close" => self.open -= 1,
            _ => {}
        }
        self.minus = role == "minus";
        if matches!(token.spelling, b"input" | b"var" | b"timer") {
            self.word = token.spelling.to_vec();
        }
    }

    fn declare(&mut self, bit: bool) {
        self.names.push(Entry {
            spelling: std::mem::take(&mut self.new_name),
            word: self.word.clone(),
            bit,
            ruled: false,
            watched: None,
        });
    }
}
