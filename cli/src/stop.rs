//! Why a run ends early, and the status that it ends with.

use crate::progress;
use std::fmt::Display;
use std::io::{self, Write};
use std::path::Path;

/// Says something on standard error; if nobody reads it, so be it.
pub fn tell(text: &str) {
    progress::clear();
    let _ = io::stderr().write_all(text.as_bytes());
}

#[derive(Debug)]
pub enum Stop {
    /// refused, and told: status 1
    Refused,
    /// wrong usage, or a file that cannot be read or written: status 2
    Failed(String),
    /// the reader of standard output has gone: nothing more to say
    Closed,
}

impl Stop {
    pub fn file(path: &Path, error: impl Display) -> Stop {
        Stop::Failed(format!("{}: {}", path.display(), words(error)))
    }
}

/// The system's words for an error; its number says nothing more.
fn words(error: impl Display) -> String {
    let all = error.to_string();
    all.split(" (os error").next().unwrap_or(&all).to_owned()
}

/// Errors of standard output.
impl From<io::Error> for Stop {
    fn from(error: io::Error) -> Stop {
        match error.kind() {
            io::ErrorKind::BrokenPipe => Stop::Closed,
            _ => Stop::Failed(format!("standard output: {}", words(error))),
        }
    }
}
