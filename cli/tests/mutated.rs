//! Stored inputs with a few bytes changed: a text is refused as the archive answers, nothing else fails, and nothing is told that steers a terminal.

mod common;

use common::{fed, out, status, told};
use std::fs;

const RUNS: usize = 400;
const PIECES: [&[u8]; 20] =
    [b"timer t of v limit 5;", b" of ", b"watch: G([", b"X([", b"input ", b"var ", b"GX", b";", b"(", b"]", b"_", b"..", b"->", b"\n#\n", b"\r\n", b"99999999999", b"\xff", b"\0", b"\x1b[2J", b"\xef\xbb\xbf"];

/// Marsaglia's xorshift.
struct Numbers(u64);

impl Numbers {
    fn below(&mut self, n: usize) -> usize {
        self.0 ^= self.0 << 13;
        self.0 ^= self.0 >> 7;
        self.0 ^= self.0 << 17;
        (self.0 % n as u64) as usize
    }
}

fn mutated(numbers: &mut Numbers, stored: &[u8]) -> Vec<u8> {
    let mut bytes = stored.to_vec();
    for _ in 0..numbers.below(4) {
        let at = numbers.below(bytes.len() + 1);
        let end = bytes.len().min(at + 1 + numbers.below(12));
        match numbers.below(4) {
            0 => drop(bytes.drain(at..end)),
            1 => bytes.truncate(at),
            _ => drop(bytes.splice(at..at, PIECES[numbers.below(PIECES.len())].iter().copied())),
        }
    }
    bytes
}

/// What stands before the first line that is just `#`.
fn text_of(bytes: &[u8]) -> &[u8] {
    let mut from = 0;
    for line in bytes.split_inclusive(|b| *b == b'\n') {
        if matches!(line, b"#" | b"#\n") {
            return &bytes[..from];
        }
        from += line.len();
    }
    bytes
}

#[test]
fn refused_as_the_archive_answers_and_never_otherwise() {
    let folders = ["../examples", "../examples/trace", "../rulebooks"];
    let mut stored: Vec<_> = folders.iter().flat_map(|f| fs::read_dir(f).unwrap()).map(|e| e.unwrap().path()).collect();
    stored.retain(|p| p.extension().is_some_and(|e| e == "in" || e == "txt") && fs::metadata(p).unwrap().len() < 4000);
    stored.sort();
    let mut numbers = Numbers(0x2545_F491_4F6C_DD1D);
    let mut refused = 0;
    for run in 0..RUNS {
        let path = &stored[numbers.below(stored.len())];
        let bytes = mutated(&mut numbers, &fs::read(path).unwrap());
        let command = ["trace", "replay", "check", "closed", "show", "translate", "st", "watch"][run % 8];
        let o = if matches!(command, "check" | "show") { fed(&[command, "--rules", "-"], &bytes) } else { fed(&[command, "-"], &bytes) };
        let said = told(&o);
        let case = || format!("{command} {:?}\n{said}", String::from_utf8_lossy(&bytes));
        assert!(matches!(status(&o), 0 | 1) && !said.contains(['\u{1b}', '\0']), "{}", case());
        if let Err(refusal) = rolvenko::translate(text_of(&bytes), &mut [0; rolvenko::IMAGE_ROOM]) {
            let line = bytes[..refusal.place].iter().filter(|b| **b == b'\n').count() + 1;
            let first = said.split(": ").next().unwrap_or("");
            assert!(first.starts_with(&format!("-:{line}:")) && said.contains(&format!(": refused {}: ", refusal.number)), "{}", case());
            assert_eq!((out(&o).as_str(), status(&o)), ("", 1), "{}", case());
            refused += 1;
        }
    }
    assert!(refused > RUNS / 4 && refused < RUNS, "{refused}");
}
