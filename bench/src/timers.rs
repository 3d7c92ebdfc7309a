//! The papers' lock with its timer (request A.7), which plain C and the rules in C do not have: archive and model.

use crate::input::{timed, Input};
use crate::timing::Least;
use std::hint::black_box;

/// What archive and model do with the input; both leave the same.
struct Work {
    input: Input,
    image: Vec<u8>,
    state: Vec<i32>,
}

impl Work {
    fn new() -> Work {
        let input = timed();
        let mut work = Work {
            image: vec![0; rolvenko::IMAGE_ROOM],
            state: input.starts.clone(),
            input,
        };
        work.agree();
        work
    }

    /// Image and states are the model's, or nothing is timed.
    fn agree(&mut self) {
        let length = rolvenko::translate(&self.input.text, &mut self.image).expect("an accepted text");
        assert_eq!(self.image[..length], self.input.image);
        let mut wanted = self.input.starts.clone();
        for row in &self.input.rows {
            let steps = rolvenko_model::scan(&self.input.image, &mut wanted, row).expect("an accepted row");
            assert_eq!(rolvenko::scan(&self.input.image, &mut self.state, row), Ok(steps));
            assert_eq!(self.state, wanted);
        }
    }

    fn rows(&mut self, scan: impl Fn(&[u8], &mut [i32], &[i32])) {
        self.state.copy_from_slice(&self.input.starts);
        for row in &self.input.rows {
            scan(black_box(&self.input.image), &mut self.state, row);
        }
    }
}

pub fn table(rounds: u32) {
    let mut work = Work::new();
    let (bytes, instructions) = (work.input.text.len(), work.input.instructions);
    let units = [bytes, instructions, instructions * work.input.rows.len()];
    let mut times: [[Least; 2]; 3] = Default::default();
    for _ in 0..rounds {
        let [translate, check, scan] = &mut times;
        translate[0].round(&mut || _ = rolvenko::translate(black_box(&work.input.text), &mut work.image));
        translate[1].round(&mut || _ = rolvenko_model::translate(black_box(&work.input.text), &mut work.image));
        check[0].round(&mut || _ = rolvenko::check(black_box(&work.input.image)));
        check[1].round(&mut || _ = rolvenko_model::check(black_box(&work.input.image)));
        scan[0].round(&mut || work.rows(|image, state, row| _ = rolvenko::scan(image, state, row)));
        scan[1].round(&mut || work.rows(|image, state, row| _ = rolvenko_model::scan(image, state, row)));
    }
    println!("\ntimers, {}: ns a byte of text, or an instruction", work.input.name);
    println!("{:<10} {:>7} {:>9} {:>9} {:>7}", "service", "units", "archive", "model", "ratio");
    for ((service, units), [archive, model]) in ["translate", "check", "scan"].into_iter().zip(units).zip(&times) {
        let each = |time: &Least| time.seconds * 1e9 / units as f64;
        println!("{service:<10} {units:>7} {:>9.2} {:>9.2} {:>7.2}", each(archive), each(model), each(archive) / each(model));
    }
}
