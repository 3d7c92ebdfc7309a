//! `check` and `show`: an image's header and instructions with their places, so that a place of 11 can be found.

use crate::explain;
use crate::farm::Farm;
use crate::image::{Image, Instruction};
use crate::source::{content, Content, Taken};
use crate::stop::{tell, Stop};
use crate::text::count;
use rolvenko::Refusal;
use std::io::{BufWriter, Write};
use std::path::Path;

/// An image and the names that are known of it.
struct Shown {
    bytes: Vec<u8>,
    names: Vec<String>,
    verdict: &'static str,
}

fn open(path: &Path, taken: Option<Taken>) -> Result<Shown, Stop> {
    Ok(match content(path, taken)? {
        Content::Image(bytes) => Shown { bytes, names: Vec::new(), verdict: "image, sound" },
        Content::Text(rules) => {
            let farm = Farm::new(&rules)?;
            Shown { bytes: farm.image, names: farm.names, verdict: "rules, accepted" }
        }
    })
}

pub fn check(path: &Path, taken: Option<Taken>) -> Result<(), Stop> {
    let shown = open(path, taken)?;
    refused(path, &shown, rolvenko::check(&shown.bytes))?;
    Ok(writeln!(std::io::stdout(), "{}: {}", path.display(), shown.verdict)?)
}

fn refused(path: &Path, shown: &Shown, answer: Result<(), Refusal>) -> Result<(), Stop> {
    let Err(refusal) = answer else {
        return Ok(());
    };
    let image = Image::read(&shown.bytes);
    let there = if refusal.number == 11 { stands_at(&image, refusal.place, shown) } else { None };
    tell(&explain::image_refused(path, refusal, there.as_deref()));
    Err(Stop::Refused)
}

/// What a reader finds at a place of an image.
fn stands_at(image: &Image, place: usize, shown: &Shown) -> Option<String> {
    if place == shown.bytes.len() {
        return Some("the end: something is missing".to_owned());
    }
    if let Some(instruction) = image.code.iter().find(|i| i.at == place) {
        return Some(instruction.words(&shown.names));
    }
    let in_code = image.code_at > 0 && place >= image.code_at;
    match image.ranges.iter().rposition(|(at, _)| *at <= place) {
        _ if in_code => Some("no whole instruction".to_owned()),
        Some(id) if image.code_at > 0 => Some(format!("in the range of name {id}")),
        _ => Some("in the header".to_owned()),
    }
}

fn hex(bytes: &[u8]) -> String {
    bytes.iter().map(|b| format!("{b:02x}")).collect::<Vec<_>>().join(" ")
}

fn end_of(image: &Image, index: usize, bytes: &[u8]) -> usize {
    image.code.get(index + 1).map_or(image.broken.unwrap_or(bytes.len()), |next: &Instruction| next.at)
}

pub fn show(path: &Path, taken: Option<Taken>) -> Result<(), Stop> {
    let shown = open(path, taken)?;
    let image = Image::read(&shown.bytes);
    let mut out = BufWriter::new(std::io::stdout().lock());
    let counts = [(shown.bytes.len(), "byte"), (image.inputs, "input"), (image.variables, "variable"), (image.code.len(), "instruction")];
    writeln!(out, "{} from place {}", counts.map(|(n, what)| count(n, what)).join(", "), image.code_at)?;
    for (id, (at, range)) in image.ranges.iter().enumerate() {
        let kind = if id < image.inputs { "input" } else { "var" };
        let name = shown.names.get(id).map_or(String::new(), |n| format!(" {n}"));
        writeln!(out, "{at:>6}  {kind} {id}{name} {}..{} init {}", range.low, range.high, range.start)?;
    }
    for (n, instruction) in image.code.iter().enumerate() {
        let bytes = &shown.bytes[instruction.at..end_of(&image, n, &shown.bytes)];
        writeln!(out, "{:>6}  {:<15} {}", instruction.at, hex(bytes), instruction.words(&shown.names))?;
    }
    if let Some(at) = image.broken.filter(|at| *at < shown.bytes.len()) {
        writeln!(out, "{at:>6}  {}", hex(&shown.bytes[at..shown.bytes.len().min(at + 8)]))?;
    }
    out.flush()?;
    refused(path, &shown, rolvenko::check(&shown.bytes))
}
