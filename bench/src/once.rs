//! One call of a service as it is timed: by the archive, by plain C, by the model, or by compiled rules.

use crate::input::{inputs, Input};
use crate::native::Scan;
use std::hint::black_box;

/// A service on an input.
pub struct Work<'i> {
    pub service: &'i str,
    input: &'i Input,
}

/// Memory that a call writes.
#[derive(Clone, PartialEq, Debug)]
pub struct Memory {
    image: Vec<u8>,
    state: Vec<i32>,
}

impl<'i> Work<'i> {
    pub fn new(service: &'i str, input: &'i Input) -> Work<'i> {
        Work { service, input }
    }

    pub fn memory(&self) -> Memory {
        Memory {
            image: vec![0; rolvenko::IMAGE_ROOM],
            state: self.input.starts.clone(),
        }
    }

    /// Bytes of text, instructions of the image, or instructions of all scans of the rows.
    pub fn units(&self) -> usize {
        match self.service {
            "translate" => self.input.text.len(),
            "check" => self.input.instructions,
            _ => self.input.instructions * self.input.rows.len(),
        }
    }

    /// All give the same answer (length or steps) and leave the same memory, or nothing is timed.
    pub fn agree(&self, compiled: Scan) {
        let (mut a, mut b, mut m, mut c) = (self.memory(), self.memory(), self.memory(), self.memory());
        let answer = model(self, &mut m);
        assert_eq!((archive(self, &mut a), &a), (answer, &m), "archive, {}", self.input.name);
        assert_eq!((baseline(self, &mut b), &b), (answer, &m), "plain C, {}", self.input.name);
        if self.service == "scan" {
            native(self, compiled, &mut c);
            assert_eq!(c, m, "compiled rules, {}", self.input.name);
        }
    }
}

/// A call by the services of one crate: the image's length, or the steps of all scans.
macro_rules! call {
    ($who:ident, $work:expr, $memory:expr) => {{
        let (input, memory) = ($work.input, $memory);
        match $work.service {
            "translate" => $who::translate(black_box(&input.text), &mut memory.image).expect("an accepted text"),
            "check" => $who::check(black_box(&input.image)).map(|()| 0).expect("a sound image"),
            _ => {
                memory.state.copy_from_slice(&input.starts);
                let mut steps = 0;
                for row in &input.rows {
                    steps += $who::scan(black_box(&input.image), &mut memory.state, row).expect("an accepted row") as usize;
                }
                steps
            }
        }
    }};
}

pub fn archive(work: &Work, memory: &mut Memory) -> usize {
    call!(rolvenko, work, memory)
}

pub fn baseline(work: &Work, memory: &mut Memory) -> usize {
    call!(rolvenko_baseline, work, memory)
}

pub fn model(work: &Work, memory: &mut Memory) -> usize {
    call!(rolvenko_model, work, memory)
}

/// The rows by compiled rules, which have only scans.
pub fn native(work: &Work, compiled: Scan, memory: &mut Memory) {
    memory.state.copy_from_slice(&work.input.starts);
    for row in &work.input.rows {
        assert_eq!(compiled(memory.state.as_mut_ptr(), row.as_ptr()), 0);
    }
}

/// `calls` calls of one service, for a tool that counts instructions.
pub fn run(who: &str, service: &str, name: &str, calls: u32) {
    let inputs = inputs();
    let input = inputs.iter().find(|i| i.name == name).expect("an input of the tables");
    let work = Work::new(service, input);
    let mut memory = work.memory();
    for _ in 0..calls {
        match who {
            "archive" => archive(&work, black_box(&mut memory)),
            "baseline" => baseline(&work, black_box(&mut memory)),
            "model" => model(&work, black_box(&mut memory)),
            _ => panic!("WHO is archive, baseline or model"),
        };
    }
    println!("{}", work.units());
}
