//! Tables on standard output: a head, then a line a state, with single spaces or as CSV.

use crate::stop::Stop;
use std::fmt::Display;
use std::io::{BufWriter, IsTerminal, StdoutLock, Write};

pub struct Columns {
    out: BufWriter<StdoutLock<'static>>,
    between: &'static str,
    /// a line at a time, for one who types rows
    watched: bool,
}

impl Columns {
    pub fn new(csv: bool) -> Columns {
        let out = std::io::stdout().lock();
        Columns { watched: out.is_terminal(), out: BufWriter::new(out), between: if csv { "," } else { " " } }
    }

    pub fn head(&mut self, first: &[&str], names: &[String], last: &[&str]) -> Result<(), Stop> {
        self.put(first.iter().copied().chain(names.iter().map(String::as_str)).chain(last.iter().copied()))
    }

    pub fn line(&mut self, first: &[u64], values: &[i32], last: &[u64]) -> Result<(), Stop> {
        let [first, last] = [first, last].map(|numbers| numbers.iter().map(u64::to_string));
        self.put(first.chain(values.iter().map(i32::to_string)).chain(last))
    }

    fn put(&mut self, words: impl Iterator<Item = impl Display>) -> Result<(), Stop> {
        for (n, word) in words.enumerate() {
            write!(self.out, "{}{word}", if n == 0 { "" } else { self.between })?;
        }
        writeln!(self.out)?;
        if self.watched {
            self.out.flush()?;
        }
        Ok(())
    }

    pub fn end(mut self) -> Result<(), Stop> {
        Ok(self.out.flush()?)
    }
}
