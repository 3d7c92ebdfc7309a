//! Reference model of document 01, "Launch rules as formulas, images and traces", and of
//! requests A.1, A.2 and A.4 to A.13 of document 02.
//!
//! Written from the documents and their readings alone, in safe Rust with the
//! standard library only. Comments in quotation marks are sentences of the documents.

pub mod charge;
pub mod check;
pub mod clock;
pub mod closed;
pub mod features;
pub mod formula;
pub mod generate;
pub mod image;
pub mod instalments;
pub mod machine;
pub mod number;
pub mod parse;
pub mod plain;
pub mod program;
pub mod rounds;
pub mod st;
pub mod structured_text;
pub mod token;
pub mod trace;
pub mod watch;

pub use charge::{charge, Charge};
pub use check::{check, check_detail, Breach, Fault, Header, Range};
pub use clock::clock;
pub use closed::{closed, closed_part, combination, write_combination, Combination, NotClosed};
pub use features::Features;
pub use formula::satisfies;
pub use image::{instructions, write_image};
pub use instalments::{Answer, Paused};
pub use machine::{scan, start, ScanRefusal};
pub use parse::parse;
pub use plain::plain_scan;
pub use program::Program;
pub use rounds::{round, visit, RuleSet};
pub use structured_text::{structured_text, write_structured_text};
pub use trace::trace;
pub use watch::{watch, write_report};

/// "At most 32,768 bytes" of text.
pub const TEXT_LIMIT: usize = 32_768;
/// "At most 65,536 bytes" of image.
pub const IMAGE_LIMIT: usize = 65_536;
/// "At most 64 names in all."
pub const NAMES: usize = 64;
/// "1 to 16 bytes" of a name.
pub const NAME_BYTES: usize = 16;
/// "1 to 32 cases".
pub const CASES: usize = 32;
/// "16 open brackets of both kinds together".
pub const BRACKETS: usize = 16;
/// "at most 16" watches (A.13).
pub const WATCHES: usize = 16;
/// "never over 40 values held".
pub const HELD: usize = 40;

/// A refusal: its number in "Who can cause which refusal", or in a request, and its byte
/// place.
#[derive(Clone, Copy, Debug, PartialEq, Eq)]
pub struct Refusal {
    pub number: u8,
    pub place: usize,
}

impl Refusal {
    pub const fn new(number: u8, place: usize) -> Refusal {
        Refusal { number, place }
    }
}

/// Reads a text: "9 text or image over its limit (place 0, before all else)",
/// then the refusals of the author of the text.
pub fn read_text(text: &[u8]) -> Result<Program<'_>, Refusal> {
    if text.len() > TEXT_LIMIT {
        return Err(Refusal::new(9, 0));
    }
    parse(text)
}

/// Translates `text` and writes its image to the first bytes of `image`.
/// "10 image buffer too short, after a text without fault (place: the text length)";
/// "success writes only the image's bytes".
pub fn translate(text: &[u8], image: &mut [u8]) -> Result<usize, Refusal> {
    let program = read_text(text)?;
    let bytes = write_image(&program);
    match image.get_mut(..bytes.len()) {
        Some(part) => part.copy_from_slice(&bytes),
        None => return Err(Refusal::new(10, text.len())),
    }
    Ok(bytes.len())
}
