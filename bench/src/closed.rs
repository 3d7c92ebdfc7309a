//! Closed profiles of 65,536 scans: nanoseconds an instruction, beside the same scans called one by one.

use crate::timing::Least;
use rolvenko_model::{instructions, read_text, write_image};
use std::hint::black_box;

/// A closed rule set with 65,536 states and no inputs.
struct Profile {
    name: &'static str,
    image: Vec<u8>,
    names: usize,
}

const SCANS: u32 = 65_536;

impl Profile {
    fn new(name: &'static str, names: usize, text: &str) -> Profile {
        let image = write_image(&read_text(text.as_bytes()).expect("an accepted text"));
        Profile { name, image, names }
    }

    fn units(&self) -> f64 {
        f64::from(SCANS) * instructions(&self.image) as f64
    }

    fn closed(&self) {
        rolvenko::closed(black_box(&self.image)).expect("a closed image");
    }

    /// Every combination, each scanned by a call of its own.
    fn one_by_one(&self, combinations: &[Vec<i32>], state: &mut [i32]) {
        for found in combinations {
            state.copy_from_slice(found);
            rolvenko::scan(black_box(&self.image), state, &[]).expect("an accepted scan");
        }
    }

    fn combinations(&self) -> Vec<Vec<i32>> {
        let state = |index| rolvenko_model::combination(&self.image, index).expect("in the walk").state;
        (0..SCANS).map(state).collect()
    }
}

/// `names` names of which the `moving` have two values, the others one; each is let to a sum of `terms` previous values mod 2.
fn sums(names: usize, moving: std::ops::Range<usize>, terms: usize) -> String {
    let high = |id: usize| u8::from(moving.contains(&id));
    let mut text: String = (0..names).map(|id| format!("var n{id} 0..{};", high(id))).collect();
    for id in 0..names {
        let sum: Vec<String> = (0..terms).map(|k| format!("_n{}", (id + 5 * k) % names)).collect();
        let modulus = 1 + high(id);
        text += &format!("n{id}: GX(n{id} = (({}) mod {modulus}));", sum.join(" + "));
    }
    text
}

/// Few names and many; the two-valued ones first and last; short and long rules.
fn profiles() -> [Profile; 5] {
    [
        Profile::new("one name", 1, "var v 0..65535; v: GX(v = (_v));"),
        Profile::new("16 names", 16, &sums(16, 0..16, 1)),
        Profile::new("16 names, long", 16, &sums(16, 0..16, 24)),
        Profile::new("64, first 16", 64, &sums(64, 0..16, 4)),
        Profile::new("64, last 16", 64, &sums(64, 48..64, 4)),
    ]
}

/// So many calls of one profile, for a tool that counts instructions.
pub fn run(name: &str, calls: u32) {
    let profiles = profiles();
    let profile = profiles.iter().find(|p| p.name == name).expect("a profile of the table");
    (0..calls).for_each(|_| profile.closed());
    println!("{}", profile.units());
}

pub fn table(rounds: u32) {
    println!("\nclosed profiles of 65,536 scans, ns an instruction");
    println!("{:<16} {:>12} {:>8} {:>8} {:>7}", "profile", "instructions", "closed", "scans", "ratio");
    for profile in profiles() {
        let (mut closed, mut scans) = (Least::default(), Least::default());
        let combinations = profile.combinations();
        let mut state = vec![0; profile.names];
        for _ in 0..rounds {
            closed.round(&mut || profile.closed());
            scans.round(&mut || profile.one_by_one(&combinations, &mut state));
        }
        let [c, s] = [closed, scans].map(|time| time.seconds * 1e9 / profile.units());
        println!("{:<16} {:>12} {c:>8.2} {s:>8.2} {:>7.2}", profile.name, instructions(&profile.image), c / s);
    }
}
