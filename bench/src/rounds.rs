//! Rounds of eight rule sets with a row each, all of the same rules, beside eight undivided scans. Timed from a copy of memory in which the rows
//! wait, so the starts (a check of each image), the finishes and the copy (20,480 bytes) count too.

use crate::input::Input;
use crate::timing::Least;
use rolvenko::instalments::{post, PAUSED};
use rolvenko::rounds::{paused_len, round, RuleSet, SETS};
use rolvenko::Response;
use std::hint::black_box;

const SHARES: [usize; 4] = [1, 64, 1024, 65_536];

/// The first row of an input for each of eight sets, from the declared starts.
struct Subject<'i> {
    input: &'i Input,
    images: Vec<u8>,
    states: Vec<i32>,
    waiting: Vec<i32>,
}

impl<'i> Subject<'i> {
    fn new(input: &'i Input) -> Subject<'i> {
        let mut waiting = vec![0; paused_len(SETS)];
        for paused in waiting.chunks_mut(PAUSED) {
            assert_eq!(post(paused, &input.image, &input.rows[0]), Response::Done(0));
        }
        Subject {
            input,
            images: input.image.repeat(SETS),
            states: input.starts.repeat(SETS),
            waiting,
        }
    }

    fn sets(&self, share: usize) -> [RuleSet; SETS] {
        [RuleSet {
            image_len: self.input.image.len(),
            state_len: self.input.starts.len(),
            share,
        }; SETS]
    }

    fn scans(&self) {
        let mut states = self.states.clone();
        for at in 0..SETS {
            let state = &mut states[at * self.input.starts.len()..][..self.input.starts.len()];
            rolvenko::scan(black_box(&self.input.image), state, &self.input.rows[0]).expect("an accepted row");
        }
    }

    /// Rounds until the sets have finished, all in the same one.
    fn rounds(&self, share: usize) {
        let (mut paused, mut states, sets) = (self.waiting.clone(), self.states.clone(), self.sets(share));
        let mut answers = Vec::new();
        for _ in 0..self.input.instructions.div_ceil(share) {
            answers = round(&mut paused, black_box(&self.images), &mut states, &sets).expect("a round");
        }
        assert!(answers.iter().all(|answer| matches!(answer, Response::Done(_))));
    }
}

/// Nanoseconds, over so many rounds of timing: a step of all, with the ratio to the scans; and a visit with neither scan nor row.
pub fn table(inputs: &[Input], rounds: u32) {
    println!("\nrounds of eight rule sets with a row each: ns a step of eight scans and of rounds, ns a visit with neither scan nor row");
    println!("{:<14} {:>7} {:>7} {:>7}  shares of {SHARES:?}, ratio to scans", "input", "units", "idle", "scans");
    for input in inputs {
        let subject = Subject::new(input);
        let (mut scans, mut idle) = (Least::default(), Least::default());
        let mut shares = SHARES.map(|_| Least::default());
        let (mut paused, mut states, sets) = (vec![0; paused_len(SETS)], subject.states.clone(), subject.sets(64));
        for _ in 0..rounds {
            scans.round(&mut || subject.scans());
            idle.round(&mut || _ = round(&mut paused, black_box(&subject.images), &mut states, &sets));
            for (share, time) in SHARES.into_iter().zip(&mut shares) {
                time.round(&mut || subject.rounds(share));
            }
        }
        let steps = (SETS * input.instructions) as f64;
        let shown = shares.each_ref().map(|time| format!("{:>7.2} ({:.2})", time.seconds * 1e9 / steps, time.seconds / scans.seconds));
        println!(
            "{:<14} {:>7} {:>7.1} {:>7.2}  {}",
            input.name,
            input.instructions,
            idle.seconds * 1e9 / SETS as f64,
            scans.seconds * 1e9 / steps,
            shown.join(" ")
        );
    }
}
