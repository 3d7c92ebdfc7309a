//! Rule texts, images and rows from files. A rule file may hold rows behind a line that is just `#`, as document 01's program reads it.

use crate::stop::Stop;
use rolvenko::{IMAGE_LIMIT, TEXT_LIMIT};
use std::fs::File;
use std::io::{BufRead, BufReader, Cursor, Read};
use std::path::{Path, PathBuf};

type Reader = BufReader<Box<dyn Read>>;

/// A text and, where its file has a `#` line, the rows behind it.
pub struct Rules {
    pub path: PathBuf,
    pub text: Vec<u8>,
    pub rows: Option<Rows>,
}

/// Lines of rows still to be read.
pub struct Rows {
    pub path: PathBuf,
    /// the line read last, from 1
    pub line: usize,
    reader: Reader,
}

/// A file, or standard input for `-`.
fn open(path: &Path) -> Result<Reader, Stop> {
    let input: Box<dyn Read> = match path.to_str() {
        Some("-") => Box::new(std::io::stdin()),
        _ => Box::new(File::open(path).map_err(|e| Stop::file(path, e))?),
    };
    Ok(BufReader::new(input))
}

impl Rules {
    /// Reads up to the `#` line, and no more than a text over its limit needs.
    pub fn read(path: &Path) -> Result<Rules, Stop> {
        Rules::from(path, open(path)?)
    }

    fn from(path: &Path, mut reader: Reader) -> Result<Rules, Stop> {
        let mut text = Vec::new();
        let mut lines = 0;
        loop {
            let from = text.len();
            let room = (TEXT_LIMIT + 1).saturating_sub(from).max(2);
            let read = (&mut reader).take(room as u64).read_until(b'\n', &mut text).map_err(|e| Stop::file(path, e))?;
            lines += 1;
            if matches!(&text[from..], b"#\n" | b"#") {
                text.truncate(from);
                let rows = Rows { path: path.to_owned(), line: lines, reader };
                return Ok(Rules { path: path.to_owned(), text, rows: Some(rows) });
            }
            if read == 0 || text.len() > TEXT_LIMIT {
                return Ok(Rules { path: path.to_owned(), text, rows: None });
            }
        }
    }
}

impl Rows {
    pub fn open(path: &Path) -> Result<Rows, Stop> {
        Ok(Rows { path: path.to_owned(), line: 0, reader: open(path)? })
    }

    /// The next line without its end, or none.
    pub fn next(&mut self) -> Result<Option<Vec<u8>>, Stop> {
        let mut line = Vec::new();
        let mut begun = false;
        loop {
            let part = self.reader.fill_buf().map_err(|e| Stop::file(&self.path, e))?;
            if part.is_empty() {
                break;
            }
            begun = true;
            let end = part.iter().position(|b| *b == b'\n');
            part[..end.unwrap_or(part.len())].iter().for_each(|b| keep(&mut line, *b));
            let used = end.map_or(part.len(), |i| i + 1);
            self.reader.consume(used);
            if end.is_some() {
                break;
            }
        }
        if !begun {
            return Ok(None);
        }
        self.line += 1;
        Ok(Some(line))
    }
}

/// Leading zeros say nothing and are dropped. Without them no row of 64 numbers is over the limit, so what is cut there is no row, or has too
/// many numbers.
fn keep(line: &mut Vec<u8>, byte: u8) {
    let leads = line.last() == Some(&b'0') && !line.iter().rev().nth(1).is_some_and(u8::is_ascii_digit);
    if byte.is_ascii_digit() && leads {
        line.pop();
    }
    if line.len() <= 1 << 16 {
        line.push(byte);
    }
}

/// A row's numbers, or why a line is none.
pub type Row = Result<Vec<i32>, String>;

/// Decimals with single spaces, `-` allowed; an empty line is a row of no numbers. Anything else is no row.
pub fn row(line: &[u8]) -> Row {
    if line.is_empty() {
        return Ok(Vec::new());
    }
    if line.ends_with(b"\r") {
        return Err("it ends with a carriage return".to_owned());
    }
    if let Some(other) = line.iter().find(|b| !b.is_ascii_digit() && !matches!(b, b'-' | b' ')) {
        return Err(format!("{} stands in it", printed(*other)));
    }
    line.split(|b| *b == b' ').map(decimal).collect()
}

fn decimal(part: &[u8]) -> Result<i32, String> {
    let spelled = String::from_utf8_lossy(part);
    let digits = part.strip_prefix(b"-").unwrap_or(part);
    match digits {
        [] if part.is_empty() => Err("single spaces stand between numbers, and nowhere else".to_owned()),
        _ if digits.is_empty() || digits.contains(&b'-') => Err(format!("`{}` is no number", shortened(&spelled))),
        _ => spelled.parse().map_err(|_| format!("{} is outside 32 bits", shortened(&spelled))),
    }
}

fn shortened(text: &str) -> String {
    if text.len() <= 24 { text.to_owned() } else { format!("{}..", &text[..20]) }
}

/// A byte as one can read it.
pub fn printed(byte: u8) -> String {
    if byte.is_ascii_graphic() { format!("`{}`", byte as char) } else { format!("a byte {byte:02x} (hex)") }
}

/// Whether bytes are those of an image rather than of a text: a byte below 32 but tab, LF and CR stands among them. Every sound image has a byte
/// 0, 21 or 22, and no accepted text has one.
pub fn is_image(bytes: &[u8]) -> bool {
    bytes.iter().any(|b| *b < 32 && !matches!(b, b'\t' | b'\n' | b'\r'))
}

/// What a file holds; where the command line does not say, it goes by the bytes before a `#` line.
#[derive(Clone, Copy)]
pub enum Taken {
    Image,
    Rules,
}

pub enum Content {
    Image(Vec<u8>),
    Text(Rules),
}

pub fn content(path: &Path, taken: Option<Taken>) -> Result<Content, Stop> {
    let mut bytes = Vec::new();
    open(path)?.take(IMAGE_LIMIT as u64 + 1).read_to_end(&mut bytes).map_err(|e| Stop::file(path, e))?;
    let rows = bytes.windows(3).position(|w| w == b"\n#\n").unwrap_or(bytes.len());
    Ok(match taken.unwrap_or(if is_image(&bytes[..rows]) { Taken::Image } else { Taken::Rules }) {
        Taken::Image => Content::Image(bytes),
        Taken::Rules => Content::Text(Rules::from(path, BufReader::new(Box::new(Cursor::new(bytes))))?),
    })
}
