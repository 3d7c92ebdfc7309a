//! A refused text, told as compilers tell: a first line of gcc's form, so that editors jump there, then the source line with the token marked,
//! what was wanted, and what to do.

use crate::about::about;
use crate::advice::advice;
use crate::text::{line_column, token_end};
use codespan_reporting::diagnostic::{Diagnostic, Label};
use codespan_reporting::files::SimpleFile;
use codespan_reporting::term::{self, termcolor::NoColor};
use rolvenko::{meaning, Refusal};
use std::path::Path;

/// Longer lines are shown in part.
const LINE: usize = 240;
/// Bytes shown before and behind the token of such a line.
const AROUND: usize = 80;

/// The text with a replacement character for each run of bytes that is no UTF-8, and where each place of the text stands in it.
fn readable(text: &[u8]) -> (String, impl Fn(usize) -> usize + '_) {
    // characters that steer a terminal or are not seen become others of the same length
    let seen = |c: char| match c {
        '\n' | '\t' => c,
        _ if c.is_ascii_control() => '?',
        _ if c.is_control() => '\u{bf}',
        '\u{200b}'..='\u{200f}' | '\u{2028}'..='\u{202e}' | '\u{2060}'..='\u{206f}' | '\u{feff}' => '\u{fffd}',
        _ => c,
    };
    let shown = String::from_utf8_lossy(text).chars().map(seen).collect();
    let place = move |at: usize| String::from_utf8_lossy(&text[..at.min(text.len())]).len();
    (shown, place)
}

/// The text with a long line around the token cut down, and the token's place in it.
fn cut_down(text: &[u8], at: usize, end: usize) -> (Vec<u8>, usize) {
    let start = text[..at].iter().rposition(|b| *b == b'\n').map_or(0, |p| p + 1);
    let stop = text[end..].iter().position(|b| *b == b'\n').map_or(text.len(), |p| end + p);
    if stop - start <= LINE {
        return (text.to_vec(), at);
    }
    let (from, to) = (start.max(at.saturating_sub(AROUND)), stop.min(end.min(at + AROUND) + AROUND));
    let front = if from > start { &b".. "[..] } else { b"" };
    let back = if to < stop { &b" .."[..] } else { b"" };
    let shown = [&text[..start], front, &text[from..to], back, &text[stop..]].concat();
    (shown, start + front.len() + at - from)
}

/// The whole message of a refused text.
pub fn text_refused(path: &Path, text: &[u8], refusal: Refusal) -> String {
    let name = path.display().to_string();
    let (line, column) = line_column(text, refusal.place);
    let first = format!("{name}:{line}:{column}: refused {}: {}\n", refusal.number, meaning(refusal.number));
    if refusal.number == 9 {
        return format!("{first}  {}\n", advice(9));
    }
    let told = about(text, refusal);
    let at = refusal.place.min(text.len());
    let end = token_end(text, at);
    let (part, at) = cut_down(text, at, end);
    let (shown, place) = readable(&part);
    let mut labels = vec![Label::primary((), place(at)..place(token_end(&part, at))).with_message(told.token)];
    if let Some((from, to, message)) = told.elsewhere.filter(|_| part.len() == text.len()) {
        labels.push(Label::secondary((), place(from)..place(to)).with_message(message));
    }
    let diagnostic = Diagnostic::error().with_message("").with_labels(labels).with_notes(told.notes);
    let mut written = NoColor::new(Vec::new());
    let config = term::Config { chars: term::Chars::ascii(), ..term::Config::default() };
    if term::emit(&mut written, &config, &SimpleFile::new(name, shown), &diagnostic).is_err() {
        return first;
    }
    // codespan's own heading and place say again what the first line says
    let snippet = String::from_utf8_lossy(&written.into_inner()).into_owned();
    let lines = snippet.lines().skip(2).map(str::trim_end).filter(|l| !l.is_empty());
    lines.fold(first, |all, line| all + line + "\n")
}

/// A refused image: the place, and what stands there.
pub fn image_refused(path: &Path, refusal: Refusal, at: Option<&str>) -> String {
    let name = path.display();
    let stands = at.map_or(String::new(), |what| format!(" ({what})"));
    format!("{name}: refused {} at {}{stands}: {}\n  {}\n", refusal.number, refusal.place, meaning(refusal.number), advice(refusal.number))
}
