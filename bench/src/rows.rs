//! Whole lists of rows: one call of replay, which checks the image once, beside translate, start and a scan for each row.

use crate::input::Input;
use crate::timing::Least;
use std::hint::black_box;

/// The rows of an input over and over, and memory for what they leave.
struct List<'i> {
    input: &'i Input,
    cells: Vec<i32>,
    lengths: Vec<usize>,
    image: Vec<u8>,
    state: Vec<i32>,
    numbers: Vec<u8>,
    steps: Vec<usize>,
    trace: Vec<i32>,
}

impl List<'_> {
    fn new(input: &Input, count: usize) -> List<'_> {
        let rows = || input.rows.iter().cycle().take(count);
        List {
            input,
            cells: rows().flatten().copied().collect(),
            lengths: rows().map(Vec::len).collect(),
            image: vec![0; rolvenko::IMAGE_ROOM],
            state: input.starts.clone(),
            numbers: vec![0; count],
            steps: vec![0; count],
            trace: vec![0; (count + 1) * input.starts.len()],
        }
    }

    fn replay(&mut self) {
        let records = rolvenko::Records {
            numbers: &mut self.numbers,
            steps: &mut self.steps,
            trace: &mut self.trace,
        };
        let text = black_box(&self.input.text);
        rolvenko::replay(text, &mut self.image, &mut self.state, &self.cells, &self.lengths, records).expect("an accepted text");
    }

    /// The same by the other services; a refused row is recorded and the next one goes on.
    fn one_by_one(&mut self) {
        let length = rolvenko::translate(black_box(&self.input.text), &mut self.image).expect("an accepted text");
        let image = &self.image[..length];
        rolvenko::start(image, &mut self.state).expect("a state of the right length");
        let names = self.state.len();
        self.trace[..names].copy_from_slice(&self.state);
        let (mut cell, mut place) = (0, names);
        for (at, length) in self.lengths.iter().enumerate() {
            let answer = rolvenko::scan(image, &mut self.state, &self.cells[cell..cell + length]);
            cell += length;
            self.numbers[at] = answer.map_or_else(|refusal| refusal.number, |_| 0);
            self.steps[at] = answer.map_or_else(|refusal| refusal.steps, |steps| steps) as usize;
            if answer.is_ok() {
                self.trace[place..place + names].copy_from_slice(&self.state);
                place += names;
            }
        }
    }

    /// Both leave the same, or nothing is timed.
    fn agree(&mut self) {
        self.one_by_one();
        let wanted = (self.state.clone(), self.numbers.clone(), self.steps.clone(), self.trace.clone());
        self.replay();
        assert!(wanted == (self.state.clone(), self.numbers.clone(), self.steps.clone(), self.trace.clone()), "{}", self.input.name);
    }
}

/// Thousands of rows a second, over so many rounds.
pub fn table(inputs: &[Input], rounds: u32) {
    println!("\nlists of rows, thousands of rows a second, translation and start included");
    println!("{:<14} {:>6} {:>12} {:>12} {:>7}", "input", "rows", "replay", "row by row", "ratio");
    for input in inputs.iter().filter(|i| ["latch", "lock", "plc_square", "generated 8K"].contains(&i.name.as_str())) {
        for count in [16, 1024] {
            let mut list = List::new(input, count);
            list.agree();
            let (mut replay, mut single) = (Least::default(), Least::default());
            for _ in 0..rounds {
                replay.round(&mut || list.replay());
                single.round(&mut || list.one_by_one());
            }
            let [r, s] = [replay, single].map(|time| count as f64 / time.seconds / 1e3);
            println!("{:<14} {count:>6} {r:>12.1} {s:>12.1} {:>7.2}", input.name, r / s);
        }
    }
}
