//! Structured Text: MB of rule text a second, beside translate and the model's writer in the same run, and growth with size.

use crate::input::Input;
use crate::slope;
use crate::timing::Least;
use rolvenko::{structured_text, translate, IMAGE_ROOM, ST_ROOM};
use std::hint::black_box;

/// An input with the length of its Structured Text and the least times.
struct Line<'i> {
    input: &'i Input,
    length: usize,
    print: Least,
    translate: Least,
    model: Least,
}

impl<'i> Line<'i> {
    /// Archive and model write the same bytes, or nothing is timed.
    fn new(input: &'i Input) -> Line<'i> {
        let (mut found, mut wanted) = (vec![0; ST_ROOM], vec![0; ST_ROOM]);
        let length = rolvenko_model::structured_text(&input.text, &mut wanted).expect("a text that has a Structured Text");
        assert_eq!((structured_text(&input.text, &mut found), found), (Ok(length), wanted), "{}", input.name);
        Line {
            input,
            length,
            print: Least::default(),
            translate: Least::default(),
            model: Least::default(),
        }
    }

    fn round(&mut self, out: &mut [u8], image: &mut [u8]) {
        let text = &self.input.text;
        self.print.round(&mut || _ = structured_text(black_box(text), black_box(out)));
        self.translate.round(&mut || _ = translate(black_box(text), black_box(image)));
        self.model.round(&mut || _ = rolvenko_model::structured_text(black_box(text), black_box(out)));
    }

    fn print(&self) {
        let speed = |time: &Least| format!("{:.1} MB/s", self.input.text.len() as f64 / time.seconds / 1e6);
        println!(
            "{:<14} {:>7} {:>8} {:>11} {:>11} {:>7.2} {:>11} {:>7.2}",
            self.input.name,
            self.input.text.len(),
            self.length,
            speed(&self.print),
            speed(&self.translate),
            self.translate.seconds / self.print.seconds,
            speed(&self.model),
            self.model.seconds / self.print.seconds
        );
    }
}

pub fn table(inputs: &[Input], rounds: u32) {
    let (mut out, mut image) = (vec![0; ST_ROOM], vec![0; IMAGE_ROOM]);
    let mut lines: Vec<Line> = inputs.iter().map(Line::new).collect();
    for _ in 0..rounds {
        lines.iter_mut().for_each(|line| line.round(&mut out, &mut image));
    }
    println!("\nStructured Text, MB of rule text a second; a ratio is the archive's speed over that of translate, of the model");
    println!(
        "{:<14} {:>7} {:>8} {:>11} {:>11} {:>7} {:>11} {:>7}",
        "input", "bytes", "printed", "archive", "translate", "ratio", "model", "ratio"
    );
    lines.iter().for_each(Line::print);
    let points: Vec<(f64, f64)> =
        lines.iter().filter(|line| line.input.generated).map(|line| (line.input.text.len() as f64, line.print.seconds)).collect();
    println!("growth on the generated texts of 1 to 32 KiB: slope of log time {:.2}", slope(&points));
}

/// So many calls on one input, for a tool that counts instructions.
pub fn run(inputs: &[Input], name: &str, calls: u32) {
    let input = inputs.iter().find(|i| i.name == name).expect("an input of the tables");
    let mut out = vec![0; ST_ROOM];
    (0..calls).for_each(|_| _ = structured_text(black_box(&input.text), black_box(&mut out)));
    println!("{}", input.text.len());
}
