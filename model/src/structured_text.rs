//! Request A.4 of document 02, "Structured Text for the eastern controllers": the writer.
//! What is written means what module `st` says.
//!
//! Without request A.2 names that differ in letter case only, and names that are grammar
//! words in another case, are printed as they are.

use crate::program::{
    Atom, Body, Condition, Expression, Factor, Name, Operand, Product, Program, Relation, Rule,
    Sum, Term,
};
use crate::token::{tokens, Kind};
use crate::{read_text, Refusal};

/// "21 a declared name that is IF, THEN, ELSIF, DINT, AND, OR or NOT"
const RESERVED: [&[u8]; 7] = [b"IF", b"THEN", b"ELSIF", b"DINT", b"AND", b"OR", b"NOT"];

/// Writes the ST of a text to the first bytes of `out`. "Errors: 21 .., at its
/// declaration, after all faults of the text; a short buffer is 10, after 21."
pub fn structured_text(text: &[u8], out: &mut [u8]) -> Result<usize, Refusal> {
    let program = read_text(text)?;
    if let Some(place) = unprintable(text) {
        return Err(Refusal::new(21, place));
    }
    let bytes = write_structured_text(&program).into_bytes();
    match out.get_mut(..bytes.len()) {
        Some(part) => part.copy_from_slice(&bytes),
        None => return Err(Refusal::new(10, text.len())),
    }
    Ok(bytes.len())
}

/// The first place of an accepted text that is 21: a declared name that is reserved "under
/// A.2's sameness", "with a to z read as A to Z", or a timer, "at its word" (A.7).
fn unprintable(text: &[u8]) -> Option<usize> {
    let tokens = tokens(text);
    let places = tokens.windows(2).filter_map(|pair| {
        let upper = pair[1].spelling.to_ascii_uppercase();
        match pair[0].kind {
            Kind::Timer => Some(pair[0].place),
            Kind::Input | Kind::Var if RESERVED.contains(&&upper[..]) => Some(pair[1].place),
            _ => None,
        }
    });
    places.min()
}

/// "The writer prints sections VAR_INPUT and VAR (each left out if empty), one IF/ELSIF
/// block or assignment a rule, then every previous-value line, in declared order."
pub fn write_structured_text(program: &Program) -> String {
    let mut writer = Writer {
        names: program.names.iter().map(spelled).collect(),
        out: String::new(),
    };
    writer.sections(program);
    for rule in &program.rules {
        writer.rule(rule);
    }
    for name in &writer.names {
        writer.out += &format!("_{name} := {name};\n");
    }
    writer.out
}

/// "Names print as declared"
fn spelled<'t>(name: &Name<'t>) -> &'t str {
    std::str::from_utf8(name.spelling).expect("names are ASCII")
}

struct Writer<'t> {
    names: Vec<&'t str>,
    out: String,
}

impl Writer<'_> {
    /// "Inputs stand in VAR_INPUT; their previous values stand in VAR before the variables,
    /// each of which is followed by its own."
    fn sections(&mut self, program: &Program) {
        let line = |mark: &str, name: &Name| {
            // "numbers in shortest form"
            format!("  {mark}{} : DINT := {};\n", spelled(name), name.start)
        };
        let (inputs, variables) = program.names.split_at(program.inputs);
        let current: String = inputs.iter().map(|name| line("", name)).collect();
        self.section("VAR_INPUT", &current);
        let previous = inputs.iter().map(|name| line("_", name));
        let both = variables
            .iter()
            .map(|name| line("", name) + &line("_", name));
        let others: String = previous.chain(both).collect();
        self.section("VAR", &others);
    }

    fn section(&mut self, word: &str, lines: &str) {
        if !lines.is_empty() {
            self.out += &format!("{word}\n{lines}END_VAR\n");
        }
    }

    /// A function is an assignment; of cases "Later cases begin ELSIF."
    fn rule(&mut self, rule: &Rule) {
        match &rule.body {
            Body::Function(expression) => self.assignment(rule.variable, expression),
            // "one IF/ELSIF block .. a rule", a pair's too
            Body::Change { cases, .. } => {
                for (index, case) in cases.iter().enumerate() {
                    self.out += if index == 0 { "IF " } else { "ELSIF " };
                    self.condition(&case.condition);
                    self.out += " THEN\n  ";
                    self.assignment(rule.variable, &case.expression);
                }
                self.out += "END_IF;\n";
            }
        }
    }

    fn assignment(&mut self, variable: usize, expression: &Expression) {
        self.out += self.names[variable];
        self.out += " := ";
        self.expression(expression);
        self.out += ";\n";
    }

    /// "Each operation is in round brackets and nothing else is, with one space around a
    /// two-sided sign": of a list worked from left to right, all brackets open before the
    /// first operand, and one closes after each other.
    fn open(&mut self, operations: usize) {
        self.out += &"(".repeat(operations);
    }

    fn sign(&mut self, sign: &str) {
        self.out += &format!(" {sign} ");
    }

    /// "`&`, `|`, `~` .. as AND, OR, NOT"
    fn condition(&mut self, condition: &Condition) {
        self.open(condition.any.len() - 1);
        for (index, all) in condition.any.iter().enumerate() {
            if index > 0 {
                self.sign("OR");
            }
            self.all(all);
            if index > 0 {
                self.out.push(')');
            }
        }
    }

    fn all(&mut self, atoms: &[Atom]) {
        self.open(atoms.len() - 1);
        for (index, atom) in atoms.iter().enumerate() {
            if index > 0 {
                self.sign("AND");
            }
            self.atom(atom);
            if index > 0 {
                self.out.push(')');
            }
        }
    }

    /// A space "after NOT".
    fn atom(&mut self, atom: &Atom) {
        match atom {
            Atom::Compare {
                relation,
                left,
                right,
            } => {
                self.open(1);
                self.expression(left);
                self.sign(relation_sign(*relation));
                self.expression(right);
                self.out.push(')');
            }
            Atom::Bracket { negated, condition } => {
                self.out += if *negated { "(NOT " } else { "" };
                self.condition(condition);
                self.out += if *negated { ")" } else { "" };
            }
        }
    }

    fn expression(&mut self, expression: &Expression) {
        self.open(expression.rest.len());
        self.term(&expression.first);
        for (operator, term) in &expression.rest {
            self.sign(match operator {
                Sum::Add => "+",
                Sum::Subtract => "-",
            });
            self.term(term);
            self.out.push(')');
        }
    }

    /// "`mod` as .. MOD"
    fn term(&mut self, term: &Term) {
        self.open(term.rest.len());
        self.factor(&term.first);
        for (operator, factor) in &term.rest {
            self.sign(match operator {
                Product::Multiply => "*",
                Product::Divide => "/",
                Product::Modulo => "MOD",
            });
            self.factor(factor);
            self.out.push(')');
        }
    }

    /// No space "after a minus".
    fn factor(&mut self, factor: &Factor) {
        self.out += if factor.negated { "(-" } else { "" };
        match &factor.operand {
            Operand::Number(value) => self.out += &value.to_string(),
            Operand::Current(id) => self.out += self.names[*id],
            Operand::Previous(id) => {
                self.out.push('_');
                self.out += self.names[*id];
            }
            Operand::Bracket(inner) => self.expression(inner),
        }
        self.out += if factor.negated { ")" } else { "" };
    }
}

fn relation_sign(relation: Relation) -> &'static str {
    match relation {
        Relation::Equal => "=",
        Relation::Unequal => "<>",
        Relation::Less => "<",
        Relation::LessEqual => "<=",
        Relation::Greater => ">",
        Relation::GreaterEqual => ">=",
    }
}
