//! Scans that are refused before or behind their code.

use crate::input::Input;
use crate::timing::Least;
use std::hint::black_box;

/// A scan and the number that refuses it.
struct Refused {
    number: u8,
    image: Vec<u8>,
    state: Vec<i32>,
    row: Vec<i32>,
}

impl Refused {
    fn new(number: u8, input: &Input) -> Refused {
        Refused {
            number,
            image: input.image.clone(),
            state: input.starts.clone(),
            row: input.rows[0].clone(),
        }
    }

    fn archive(&mut self) -> u8 {
        rolvenko::scan(black_box(&self.image), &mut self.state, &self.row).map_or_else(|refusal| refusal.number, |_| 0)
    }

    fn baseline(&mut self) -> u8 {
        rolvenko_baseline::scan(black_box(&self.image), &mut self.state, &self.row).map_or_else(|refusal| refusal.number, |_| 0)
    }

    fn model(&mut self) -> u8 {
        rolvenko_model::scan(black_box(&self.image), &mut self.state, &self.row).map_or_else(|refusal| refusal.number, |_| 0)
    }
}

/// One of each: an image cut at its last byte, a row too long, a state and a row with a value out of its range.
fn cases(input: &Input) -> Vec<Refused> {
    let mut list: Vec<Refused> = [11, 12, 18, 13].map(|number| Refused::new(number, input)).into();
    list[0].image.pop();
    list[1].row.push(0);
    list[2].state[0] = i32::MAX;
    list[3].row[0] = i32::MAX;
    list
}

/// Nanoseconds a call, over so many rounds.
pub fn table(input: &Input, rounds: u32) {
    println!("\nrefused scans of {}, ns a call", input.name);
    println!("{:<8} {:>9} {:>9} {:>7} {:>9} {:>7}", "refusal", "archive", "plain C", "ratio", "model", "ratio");
    for mut scan in cases(input) {
        let (mut archive, mut baseline, mut model) = (Least::default(), Least::default(), Least::default());
        for _ in 0..rounds {
            archive.round(&mut || assert_eq!(scan.archive(), scan.number));
            baseline.round(&mut || assert_eq!(scan.baseline(), scan.number));
            model.round(&mut || assert_eq!(scan.model(), scan.number));
        }
        let [a, b, m] = [archive, baseline, model].map(|time| time.seconds * 1e9);
        println!("{:<8} {a:>9.0} {b:>9.0} {:>7.2} {m:>9.0} {:>7.2}", scan.number, a / b, a / m);
    }
}
