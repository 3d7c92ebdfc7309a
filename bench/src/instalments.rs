//! A scan in instalments beside the undivided scan of the same row: posting, starting, and instalments of some sizes with their finish. The
//! instalments are timed from the memory of a scan just started; what they move of it is put back before each, and that counts too.

use crate::input::Input;
use crate::timing::Least;
use rolvenko::instalments::{advance, finish, PAUSED};
use rolvenko::{Paused, Response};
use std::hint::black_box;

const SIZES: [usize; 4] = [1, 64, 1024, 65_536];

/// The first row of an input, scanned from the declared starts.
struct Subject<'i> {
    input: &'i Input,
    begun: [i32; PAUSED],
    /// Places of `begun` that instalments and their finish leave with another number.
    moved: Vec<usize>,
}

impl<'i> Subject<'i> {
    fn new(input: &'i Input, sizes: &[usize]) -> Subject<'i> {
        let mut paused = Paused::new();
        assert_eq!(paused.post(&input.image, &input.rows[0]), Response::Done(0));
        assert_eq!(paused.begin(&input.image, &input.starts), Response::Done(0));
        let begun = *paused.numbers();
        let mut subject = Subject {
            input,
            begun,
            moved: Vec::new(),
        };
        for &size in sizes {
            let mut left = begun;
            subject.instalments(&mut left, size);
            subject.moved.extend((0..PAUSED).filter(|&i| left[i] != begun[i]));
        }
        subject.moved.sort_unstable();
        subject.moved.dedup();
        subject
    }

    fn scan(&self) {
        let mut state = self.input.starts.clone();
        rolvenko::scan(black_box(&self.input.image), &mut state, &self.input.rows[0]).expect("an accepted row");
    }

    fn post(&self) {
        let mut paused = Paused::from_numbers(self.begun);
        assert_eq!(paused.post(black_box(&self.input.image), &self.input.rows[0]), Response::Done(0));
    }

    /// A start is a post before it.
    fn begin(&self) {
        let mut paused = Paused::new();
        assert_eq!(paused.post(black_box(&self.input.image), &self.input.rows[0]), Response::Done(0));
        assert_eq!(paused.begin(&self.input.image, &self.input.starts), Response::Done(0));
    }

    /// From `paused` as the start left it, and it is left so.
    fn instalments(&self, paused: &mut [i32; PAUSED], size: usize) {
        let mut state = self.input.starts.clone();
        let mut left = self.input.instructions;
        while left > 0 {
            let Response::Done(steps) = advance(paused, black_box(&self.input.image), size) else {
                panic!("an instalment");
            };
            left -= steps as usize;
        }
        assert_eq!(finish(paused, &mut state), Response::Done(self.input.instructions as u32));
        self.moved.iter().for_each(|&i| paused[i] = self.begun[i]);
    }
}

/// So many scans of one input in instalments of one size, for a tool that counts instructions.
pub fn run(inputs: &[Input], name: &str, size: usize, calls: u32) {
    let input = inputs.iter().find(|input| input.name == name).expect("an input of the tables");
    let subject = Subject::new(input, &[size]);
    let mut paused = subject.begun;
    (0..calls).for_each(|_| subject.instalments(&mut paused, size));
    println!("{}", input.instructions);
}

/// Nanoseconds, over so many rounds: of post and start a call, of instalments an instruction with the ratio to scan.
pub fn table(inputs: &[Input], rounds: u32) {
    println!("\na scan in instalments: ns a call of post and of start, ns an instruction of scan and of instalments with their finish");
    println!("{:<14} {:>7} {:>9} {:>9} {:>7}  instalments of {SIZES:?}, ratio to scan", "input", "units", "post", "start", "scan");
    for input in inputs {
        let subject = Subject::new(input, &SIZES);
        let mut paused = subject.begun;
        let (mut scan, mut post, mut begin) = (Least::default(), Least::default(), Least::default());
        let mut sizes = SIZES.map(|_| Least::default());
        for _ in 0..rounds {
            scan.round(&mut || subject.scan());
            post.round(&mut || subject.post());
            begin.round(&mut || subject.begin());
            for (size, time) in SIZES.into_iter().zip(&mut sizes) {
                time.round(&mut || subject.instalments(&mut paused, size));
            }
        }
        let units = input.instructions as f64;
        let each = |time: &Least| time.seconds * 1e9 / units;
        let shown = sizes.each_ref().map(|time| format!("{:>7.2} ({:.2})", each(time), time.seconds / scan.seconds));
        println!(
            "{:<14} {:>7} {:>9.0} {:>9.0} {:>7.2}  {}",
            input.name,
            input.instructions,
            post.seconds * 1e9,
            (begin.seconds - post.seconds) * 1e9,
            each(&scan),
            shown.join(" ")
        );
    }
}
