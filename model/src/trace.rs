//! The trace program: from its input to its output.

use crate::image::write_image;
use crate::machine::{scan, start};
use crate::program::Program;
use crate::read_text;

/// The output of the trace program for an input.
pub fn trace(input: &[u8]) -> Vec<u8> {
    let (text, rows) = split(input);
    let program = match read_text(text) {
        Ok(program) => program,
        Err(refusal) => {
            return format!("refused {} at {}\n", refusal.number, refusal.place).into_bytes()
        }
    };
    let image = write_image(&program);
    let names = program.names.len();
    let mut state = vec![0; program.state_length()];
    let mut out = head(&program);
    let mut result = start(&image, &mut state).err().map_or(0, |r| r.number);
    // "the trace program doesn't print elapsed time"
    print(&mut out, 0, &state[..names], result);
    for (index, line) in lines(rows).enumerate() {
        result = match row(line) {
            Some(row) => scan(&image, &mut state, &row).err().map_or(0, |r| r.number),
            // "a line that isn't so, or has a number outside 32 bits, has the wrong length"
            None => 12,
        };
        print(&mut out, index + 1, &state[..names], result);
    }
    out
}

/// "all bytes before the first line that is just `#`, line end included", and all bytes
/// after that line. "Without a `#` line there are no rows."
fn split(input: &[u8]) -> (&[u8], &[u8]) {
    let mut from = 0;
    while from < input.len() {
        let rest = &input[from..];
        let length = rest.iter().position(|&b| b == b'\n').unwrap_or(rest.len());
        let next = (from + length + 1).min(input.len());
        if &rest[..length] == b"#" {
            return (&input[..from], &input[next..]);
        }
        from = next;
    }
    (input, &[])
}

/// "one row a line (nothing after the last LF is no line)"
fn lines(rows: &[u8]) -> impl Iterator<Item = &[u8]> {
    rows.split_inclusive(|&byte| byte == b'\n')
        .map(|line| line.strip_suffix(b"\n").unwrap_or(line))
}

/// "decimals, `-` allowed, with single spaces"; an empty line is a row of no numbers.
fn row(line: &[u8]) -> Option<Vec<i32>> {
    if line.is_empty() {
        return Some(Vec::new());
    }
    line.split(|&byte| byte == b' ').map(decimal).collect()
}

fn decimal(field: &[u8]) -> Option<i32> {
    let digits = field.strip_prefix(b"-").unwrap_or(field);
    if digits.is_empty() || !digits.iter().all(u8::is_ascii_digit) {
        return None;
    }
    let size = digits.iter().fold(0i64, |value, digit| {
        (value * 10 + i64::from(digit - b'0')).min(1 << 40)
    });
    let value = if digits.len() < field.len() {
        -size
    } else {
        size
    };
    i32::try_from(value).ok()
}

/// `scan go run result`
fn head(program: &Program) -> Vec<u8> {
    let mut out = b"scan ".to_vec();
    for name in &program.names {
        out.extend_from_slice(name.spelling);
        out.push(b' ');
    }
    out.extend_from_slice(b"result\n");
    out
}

/// "row number (0 the start), values of the state after the row in declared order (for a
/// refused row, those it found), refusal or 0"
fn print(out: &mut Vec<u8>, number: usize, state: &[i32], result: u8) {
    let values: String = state.iter().map(|value| format!("{value} ")).collect();
    out.extend_from_slice(format!("{number} {values}{result}\n").as_bytes());
}
