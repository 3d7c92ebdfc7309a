//! Watches over long traces: nanoseconds a place, watch and instruction of its conditions, and growth with the places.

use crate::slope;
use crate::timing::Least;
use rolvenko::{write_report, WATCHES};
use std::hint::black_box;

/// What holds at every place of the traces here, so that each watch goes over the whole of one.
const CONDITION: &str = "v >= 0 & i0 <= 1 | v = _v + 1";
/// Its instructions: 7 values, 3 comparisons, a sum, and, or.
const INSTRUCTIONS: usize = 13;
const PLACES: [usize; 4] = [1_000, 10_000, 100_000, 1_000_000];
/// Instructions after which a round is enough.
const MANY: usize = 20_000_000;

/// A text of so many names and watches, of which every second one is a pair.
struct Watched {
    names: usize,
    watches: usize,
    text: String,
}

impl Watched {
    fn new(names: usize, watches: usize) -> Watched {
        let mut text: String = (0..names - 1).map(|k| format!("input i{k} 0..1;")).collect();
        text += "var v 0..9;v:GX(v=(i0));";
        for k in 0..watches {
            text += &match k % 2 {
                0 => format!("watch:G([{CONDITION}]);"),
                _ => format!("watch:G([{CONDITION}]->X([{CONDITION}]));"),
            };
        }
        Watched { names, watches, text }
    }

    /// Instructions of all conditions over so many places.
    fn units(&self, places: usize) -> usize {
        let conditions = self.watches + self.watches / 2;
        places * conditions * INSTRUCTIONS
    }

    /// Archive and model report the same, that none fails, or nothing is timed.
    fn agree(&self, trace: &[i32]) {
        let (mut found, mut wanted) = ([7; WATCHES], [7; WATCHES]);
        let count = rolvenko_model::write_report(self.text.as_bytes(), trace, &mut wanted).expect("a report");
        assert_eq!((write_report(self.text.as_bytes(), trace, &mut found), found), (Ok(count), wanted));
        assert!(count == self.watches && found[..count].iter().all(|&place| place == -1));
    }

    /// Seconds of a call over so many places.
    fn seconds(&self, places: usize, rounds: u32) -> f64 {
        let trace = vec![1; self.names * places];
        if places == PLACES[0] {
            self.agree(&trace);
        }
        let (mut time, mut report) = (Least::default(), [0; WATCHES]);
        let rounds = if self.units(places) > MANY { 2 } else { rounds };
        for _ in 0..rounds {
            time.round(&mut || _ = write_report(black_box(self.text.as_bytes()), black_box(&trace), black_box(&mut report)));
        }
        time.seconds
    }
}

pub fn table(rounds: u32) {
    println!("\nwatches, ns an instruction of a condition at a place, traces of {PLACES:?} places");
    println!("{:<6} {:>8} {:>31}  {:>6}", "names", "watches", "", "slope");
    for (names, watches) in [(2, 1), (2, 4), (2, 16), (64, 1), (64, 16)] {
        let watched = Watched::new(names, watches);
        let points = PLACES.map(|places| (places as f64, watched.seconds(places, rounds)));
        let each = points.map(|(places, seconds)| format!("{:>7.2}", seconds * 1e9 / watched.units(places as usize) as f64));
        println!("{names:<6} {watches:>8} {}  {:>6.2}", each.join(" "), slope(&points));
    }
}
