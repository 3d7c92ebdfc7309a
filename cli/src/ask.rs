//! What would have been taken instead of a refused token: asked of the archive, by trying each candidate behind what stands before the place.
//! A refusal speaks of the text up to and including its token (law `first-found`), so what follows does not count.

use crate::text::{declared, tokens, Sort};
use rolvenko::{translate, Refusal, IMAGE_ROOM};
use std::collections::BTreeSet;

const SIGNS: [&str; 32] = [
    "input", "var", "timer", "of", "limit", "init", "mod", "GX", "watch", "G", "X", ";", ":", "(", ")", "[", "]", "~", "&", "|", "=", "<>", "<", "<=", ">", ">=", "+", "-", "*", "/",
    "..", "->",
];
/// candidates from the text that are tried at most
const MOST: usize = 512;

/// Whether the text before `place`, and then the candidate, are refused only behind it, or not at all.
fn takes(text: &[u8], place: usize, candidate: &[u8]) -> bool {
    let mut tried = text[..place].to_vec();
    tried.push(b' ');
    tried.extend(candidate);
    match translate(&tried, &mut vec![0; IMAGE_ROOM]) {
        Ok(_) => true,
        Err(refusal) => refusal.place == tried.len(),
    }
}

/// Whether a number has a place there, whatever its value: 1 and 2 come first at a token.
fn takes_number(text: &[u8], place: usize) -> bool {
    let tried = [&text[..place], b" 1"].concat();
    translate(&tried, &mut vec![0; IMAGE_ROOM]).map_or_else(|r| r.place == tried.len() || (3..9).contains(&r.number), |_| true)
}

/// The candidates that are taken at the place of a refusal, in words.
pub fn wanted(text: &[u8], refusal: Refusal) -> Vec<String> {
    let place = refusal.place.min(text.len());
    let names = declared(&text[..place]);
    let mut found = Vec::new();
    if refusal.number == 7 {
        // the wanted token stands in the change formula, so behind the last but one `->`
        let before = tokens(&text[..place]);
        let arrow = before.iter().rposition(|t| t.of(text) == b"->").unwrap_or(0);
        let first = before[..arrow].iter().rposition(|t| t.of(text) == b"->").unwrap_or(0);
        let spelled: BTreeSet<&[u8]> = before[first..].iter().map(|t| t.of(text)).collect();
        let taken = spelled.into_iter().take(MOST).filter(|t| takes(text, place, t));
        return taken.map(|t| format!("`{}`", String::from_utf8_lossy(t))).collect();
    }
    let fresh = (0..).map(|i| format!("x{i}")).find(|n| names.iter().all(|d| !d.name.eq_ignore_ascii_case(n)));
    let fresh = fresh.unwrap_or_default();
    if takes(text, place, fresh.as_bytes()) {
        found.push("a new name".to_owned());
    }
    let known: Vec<&str> = names.iter().map(|d| d.name.as_str()).filter(|n| takes(text, place, n.as_bytes())).collect();
    let before: Vec<String> = names.iter().map(|d| format!("_{}", d.name)).filter(|n| takes(text, place, n.as_bytes())).collect();
    match known.len() {
        _ if !found.is_empty() => (),
        0..=3 => found.extend(known.iter().map(|n| format!("`{n}`"))),
        _ => found.push("a name".to_owned()),
    }
    match before.len() {
        0..=3 => found.extend(before.iter().map(|n| format!("`{n}`"))),
        _ => found.push("a previous value".to_owned()),
    }
    if takes_number(text, place) {
        found.push("a number".to_owned());
    }
    found.extend(SIGNS.iter().filter(|s| takes(text, place, s.as_bytes())).map(|s| format!("`{s}`")));
    if translate(&text[..place], &mut vec![0; IMAGE_ROOM]).is_ok() {
        found.push("the end".to_owned());
    }
    found
}

/// The variables without a rule, of a text that is refused 6 at its end: a rule for one of them is not refused at its name.
pub fn without_rule(text: &[u8]) -> Vec<String> {
    let mut names = declared(text);
    names.retain(|d| d.sort == Sort::Variable && takes(text, text.len(), d.name.as_bytes()));
    names.into_iter().map(|d| d.name).collect()
}

/// The declared name nearest to one that is unknown, if one is near.
pub fn nearest(text: &[u8], unknown: &str) -> Option<String> {
    let near = declared(text).into_iter().map(|d| (distance(&d.name, unknown), d.name)).min()?;
    (near.0 <= 2 && near.0 < unknown.len()).then_some(near.1)
}

fn distance(a: &str, b: &str) -> usize {
    let (a, b) = (a.as_bytes(), b.as_bytes());
    let mut row: Vec<usize> = (0..=b.len()).collect();
    for (i, x) in a.iter().enumerate() {
        let mut last = row[0];
        row[0] = i + 1;
        for (j, y) in b.iter().enumerate() {
            let kept = last + usize::from(x != y);
            last = row[j + 1];
            row[j + 1] = kept.min(row[j] + 1).min(last + 1);
        }
    }
    row[b.len()]
}
