//! Texts for the writer of ST: names that are its words, like them, or far from them.

use super::clock::rename;
use super::mutate::edited;
use super::text::{render, text_tokens, Shape};
use super::{timers, Rng};
use crate::token::same_names;
use crate::TEXT_LIMIT;

/// Names that are 21.
const RESERVED: [&str; 14] = [
    "IF", "if", "If", "THEN", "Then", "ELSIF", "elsiF", "DINT", "dint", "AND", "and", "OR", "nOt",
    "NOT",
];
/// Names that are not.
const LIKE_WORDS: [&str; 12] = [
    "ELSE", "END", "IFF", "I", "DINT1", "INT", "XOR", "ORR", "ands", "not1", "ENDIF", "BOOL",
];

/// Which names a text may have.
#[derive(Clone, Copy, Debug, PartialEq, Eq)]
pub enum Names {
    /// Any, some of them reserved.
    Any,
    /// None that is reserved, differs from another in letter case only, or is a grammar
    /// word in another case: the ST can be read.
    Readable,
}

/// A random accepted text.
pub fn st_source(rng: &mut Rng, names: Names) -> Vec<u8> {
    loop {
        let tokens = source_tokens(rng, names);
        let text = render(rng, &tokens);
        if text.len() <= TEXT_LIMIT {
            return text;
        }
    }
}

/// Such a text with any names after one to three edits.
pub fn edited_st_source(rng: &mut Rng) -> Vec<u8> {
    let tokens = source_tokens(rng, Names::Any);
    edited(rng, tokens)
}

fn source_tokens(rng: &mut Rng, names: Names) -> Vec<Vec<u8>> {
    let shape = match rng.below(20) {
        0 => Shape::MANY,
        _ => Shape::any(rng),
    };
    // The writer answers a timer with 21.
    let timers = match names {
        Names::Any if timers::in_texts() && rng.chance(50) => shape.timers,
        _ => 0,
    };
    let mut tokens = text_tokens(rng, Shape { timers, ..shape });
    let reserved = match names {
        Names::Any => *rng.choose(&[0, 0, 0, 1, 1, 2, 3]),
        Names::Readable => 0,
    };
    if names == Names::Readable {
        number_names(&mut tokens);
    }
    for _ in 0..reserved {
        let name = *rng.choose(&RESERVED);
        rename(rng, &mut tokens, name.as_bytes());
    }
    if rng.chance(30) {
        let name = *rng.choose(&LIKE_WORDS);
        rename(rng, &mut tokens, name.as_bytes());
    }
    tokens
}

/// Gives every declared name its number at the end, so that no two are like each other or
/// like a word.
fn number_names(tokens: &mut [Vec<u8>]) {
    let declared: Vec<Vec<u8>> = tokens
        .windows(2)
        .filter(|pair| pair[0] == b"input" || pair[0] == b"var")
        .map(|pair| pair[1].clone())
        .collect();
    let numbered = |name: &[u8]| {
        let id = declared.iter().position(|other| same_names(other, name))?;
        let kept = &name[..name.len().min(12)];
        Some([kept, format!("q{id}").as_bytes()].concat())
    };
    for token in tokens {
        let (mark, name) = match token.strip_prefix(b"_") {
            Some(name) => (&b"_"[..], name),
            None => (&b""[..], &token[..]),
        };
        if let Some(new) = numbered(name) {
            *token = [mark, &new].concat();
        }
    }
}
