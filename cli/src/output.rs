//! A file that is written as the work goes on, or standard output for `-`.

use crate::stop::Stop;
use std::fs::{self, File};
use std::io::{self, BufWriter, Write};
use std::path::{Path, PathBuf};

pub struct Output {
    path: PathBuf,
    to: BufWriter<Box<dyn Write>>,
}

impl Output {
    /// Opens a file that is not among those being read.
    pub fn open(path: &Path, reads: &[PathBuf]) -> Result<Output, Stop> {
        let to: Box<dyn Write> = if path == Path::new("-") {
            Box::new(io::stdout())
        } else if reads.iter().any(|read| is_same(path, read)) {
            return Err(Stop::file(path, "this file is read; it would be written over"));
        } else {
            Box::new(File::create(path).map_err(|e| Stop::file(path, e))?)
        };
        Ok(Output { path: path.to_owned(), to: BufWriter::new(to) })
    }

    pub fn put(&mut self, bytes: &[u8]) -> Result<(), Stop> {
        let written = self.to.write_all(bytes);
        self.checked(written)
    }

    pub fn end(mut self) -> Result<(), Stop> {
        let written = self.to.flush();
        self.checked(written)
    }

    fn checked(&self, written: io::Result<()>) -> Result<(), Stop> {
        written.map_err(|e| if self.path == Path::new("-") { Stop::from(e) } else { Stop::file(&self.path, e) })
    }
}

fn is_same(one: &Path, other: &Path) -> bool {
    matches!((fs::canonicalize(one), fs::canonicalize(other)), (Ok(a), Ok(b)) if a == b && a.is_file())
}
