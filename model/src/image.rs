//! The image of an accepted text, and the count of instructions in an image.

use crate::number;
use crate::program::{
    Atom, Body, Case, Condition, Expression, Factor, Operand, Product, Program, Relation, Sum, Term,
};

/// "Instructions (decimal code byte)".
pub mod code {
    pub const CONSTANT: u8 = 1;
    pub const CURRENT: u8 = 2;
    pub const PREVIOUS: u8 = 3;
    pub const ADD: u8 = 4;
    pub const SUBTRACT: u8 = 5;
    pub const MULTIPLY: u8 = 6;
    pub const DIVIDE: u8 = 7;
    pub const MODULO: u8 = 8;
    pub const NEGATE: u8 = 9;
    pub const EQUAL: u8 = 10;
    pub const UNEQUAL: u8 = 11;
    pub const LESS: u8 = 12;
    pub const LESS_EQUAL: u8 = 13;
    pub const GREATER: u8 = 14;
    pub const GREATER_EQUAL: u8 = 15;
    pub const NOT: u8 = 16;
    pub const AND: u8 = 17;
    pub const OR: u8 = 18;
    pub const GATE: u8 = 19;
    pub const PICK: u8 = 20;
    pub const LET: u8 = 21;
    pub const SETTLE: u8 = 22;
    /// A.7: "Instruction 23 carries timer id, w's id and N, unsigned."
    pub const TIMER: u8 = 23;
    /// A.6: "Instructions 24 id and 25 id pick a rising and a falling value."
    pub const RISE: u8 = 24;
    pub const FALL: u8 = 25;
}

/// Whether an instruction picks a value.
pub fn is_pick(opcode: u8) -> bool {
    matches!(opcode, code::PICK | code::RISE | code::FALL)
}

/// How many numbers follow the code byte.
pub fn operands(opcode: u8) -> usize {
    match opcode {
        code::CONSTANT | code::CURRENT | code::PREVIOUS | code::LET | code::SETTLE => 1,
        code::TIMER => 3,
        _ => usize::from(is_pick(opcode)),
    }
}

/// One instruction: its code byte, its first number (0 if it has none), the second and third
/// of a timer, and its length.
#[derive(Clone, Copy, Debug, PartialEq, Eq)]
pub struct Instruction {
    pub opcode: u8,
    pub number: u64,
    pub more: [u64; 2],
    pub length: usize,
}

/// The instruction at the front of `bytes`, or None if there is none or its number is
/// bad. Any byte is taken as a code byte.
#[inline]
pub fn decode(bytes: &[u8]) -> Option<Instruction> {
    let (&opcode, rest) = bytes.split_first()?;
    let mut instruction = Instruction {
        opcode,
        number: 0,
        more: [0; 2],
        length: 1,
    };
    let count = operands(opcode);
    if count > 0 {
        let (number, length) = number::read(rest).ok()?;
        instruction.number = number;
        instruction.length += length;
    }
    if count > 1 {
        for operand in &mut instruction.more {
            let (number, length) = number::read(&bytes[instruction.length..]).ok()?;
            *operand = number;
            instruction.length += length;
        }
    }
    Some(instruction)
}

/// Where the code begins: "The code is the rest of the image after the header."
/// None if the header is not whole.
pub fn code_start(image: &[u8]) -> Option<usize> {
    let (inputs, mut at) = number::read(image).ok()?;
    let (variables, length) = number::read(&image[at..]).ok()?;
    at += length;
    for _ in 0..3 * (inputs + variables) {
        at += number::read(&image[at..]).ok()?.1;
    }
    Some(at)
}

/// Counts the instructions in the code, from the bytes alone. What can't be read as an
/// instruction ends the count; a sound image is read to its end.
pub fn instructions(image: &[u8]) -> usize {
    let Some(mut at) = code_start(image) else {
        return 0;
    };
    let mut count = 0;
    while let Some(instruction) = decode(&image[at..]) {
        at += instruction.length;
        count += 1;
    }
    count
}

/// The bytes of the image of a program.
pub fn write_image(program: &Program) -> Vec<u8> {
    let mut out = Vec::with_capacity(64);
    write_header(program, &mut out);
    for rule in &program.rules {
        match &rule.body {
            // "A function is: expression, let."
            Body::Function(expression) => {
                write_expression(expression, &mut out);
                with_number(code::LET, rule.variable as u64, &mut out);
            }
            Body::Change { cases, .. } => {
                let (first, pick) = match rule.rising {
                    Some(rising) => (rising, code::RISE),
                    None => (cases.len(), code::PICK),
                };
                let (first, falling) = cases.split_at(first);
                write_cases(first, pick, rule.variable, &mut out);
                write_cases(falling, code::FALL, rule.variable, &mut out);
                with_number(code::SETTLE, rule.variable as u64, &mut out);
            }
        }
        write_timers(program, rule.variable, &mut out);
    }
    out
}

/// The instructions 23 "directly after w's settle or let, timers of one w by id".
fn write_timers(program: &Program, watched: usize, out: &mut Vec<u8>) {
    for timer in &program.timers {
        if timer.watched == watched {
            with_number(code::TIMER, timer.id as u64, out);
            number::write(watched as u64, out);
            number::write(timer.limit as u64, out);
        }
    }
}

/// "A case is: condition, gate, expression, pick; after the last case, settle."
fn write_cases(cases: &[Case], pick: u8, variable: usize, out: &mut Vec<u8>) {
    for case in cases {
        write_condition(&case.condition, out);
        out.push(code::GATE);
        write_expression(&case.expression, out);
        with_number(pick, variable as u64, out);
    }
}

/// "Header: count of inputs, count of variables, then low, high, start (signed) of each
/// name in declared order"
fn write_header(program: &Program, out: &mut Vec<u8>) {
    number::write(program.inputs as u64, out);
    number::write((program.names.len() - program.inputs) as u64, out);
    for name in &program.names {
        for value in [name.low, name.high, name.start] {
            number::write(number::from_signed(i64::from(value)), out);
        }
    }
}

fn with_number(opcode: u8, value: u64, out: &mut Vec<u8>) {
    out.push(opcode);
    number::write(value, out);
}

/// "Operands come before their operation, left first."
fn write_condition(condition: &Condition, out: &mut Vec<u8>) {
    for (index, all) in condition.any.iter().enumerate() {
        for (place, atom) in all.iter().enumerate() {
            write_atom(atom, out);
            if place > 0 {
                out.push(code::AND);
            }
        }
        if index > 0 {
            out.push(code::OR);
        }
    }
}

fn write_atom(atom: &Atom, out: &mut Vec<u8>) {
    match atom {
        Atom::Compare {
            relation,
            left,
            right,
        } => {
            write_expression(left, out);
            write_expression(right, out);
            out.push(relation_code(*relation));
        }
        Atom::Bracket { negated, condition } => {
            write_condition(condition, out);
            if *negated {
                out.push(code::NOT);
            }
        }
    }
}

fn relation_code(relation: Relation) -> u8 {
    match relation {
        Relation::Equal => code::EQUAL,
        Relation::Unequal => code::UNEQUAL,
        Relation::Less => code::LESS,
        Relation::LessEqual => code::LESS_EQUAL,
        Relation::Greater => code::GREATER,
        Relation::GreaterEqual => code::GREATER_EQUAL,
    }
}

fn write_expression(expression: &Expression, out: &mut Vec<u8>) {
    write_term(&expression.first, out);
    for (operator, term) in &expression.rest {
        write_term(term, out);
        out.push(match operator {
            Sum::Add => code::ADD,
            Sum::Subtract => code::SUBTRACT,
        });
    }
}

fn write_term(term: &Term, out: &mut Vec<u8>) {
    write_factor(&term.first, out);
    for (operator, factor) in &term.rest {
        write_factor(factor, out);
        out.push(match operator {
            Product::Multiply => code::MULTIPLY,
            Product::Divide => code::DIVIDE,
            Product::Modulo => code::MODULO,
        });
    }
}

fn write_factor(factor: &Factor, out: &mut Vec<u8>) {
    match &factor.operand {
        Operand::Number(value) => {
            let signed = number::from_signed(i64::from(*value));
            with_number(code::CONSTANT, signed, out);
        }
        Operand::Current(id) => with_number(code::CURRENT, *id as u64, out),
        Operand::Previous(id) => with_number(code::PREVIOUS, *id as u64, out),
        Operand::Bracket(inner) => write_expression(inner, out),
    }
    if factor.negated {
        out.push(code::NEGATE);
    }
}
