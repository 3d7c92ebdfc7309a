//! What there is to say of the token at which a text is refused, by what the archive answers where that token is another, and by its bytes.

use crate::advice::advice;
use crate::ask;
use crate::source::{is_image, printed};
use crate::text::{declared, token_end, tokens, Sort};
use rolvenko::Refusal;

/// Of the token, of another place that it has to do with, and below the source line.
#[derive(Default)]
pub struct Told {
    pub token: String,
    pub elsewhere: Option<(usize, usize, String)>,
    pub notes: Vec<String>,
}

pub fn about(text: &[u8], refusal: Refusal) -> Told {
    let place = refusal.place.min(text.len());
    let spelled = &text[place..token_end(text, place)];
    let mut told = Told::default();
    told.token = match refusal.number {
        1 => no_token(text, place),
        2 | 7 => match ask::wanted(text, refusal) {
            wanted if wanted.is_empty() => String::new(),
            wanted => format!("wanted: {}", wanted.join(", ")),
        },
        3 => number(text, place),
        4 => name(text, place, spelled, &mut told),
        5 => too_early(text, place, spelled).to_owned(),
        6 => rule(text, place, spelled),
        8 => limit(spelled),
        21 if spelled == b"timer" => "a timer has no Structured Text here".to_owned(),
        21 => format!("{} is a word of Structured Text", String::from_utf8_lossy(spelled).to_ascii_uppercase()),
        23 => not_watched(text, place, spelled).to_owned(),
        30 => "the 17th watch".to_owned(),
        _ => String::new(),
    };
    told.notes.push(advice(refusal.number).to_owned());
    if refusal.number == 2 && told.token.contains("a new name") && WORDS.iter().any(|w| w.as_bytes().eq_ignore_ascii_case(spelled)) {
        told.notes.push(format!("`{}` is a word of the grammar, in every letter case, and so no name", String::from_utf8_lossy(spelled)));
    }
    if refusal.number == 2 && COMMENTS.iter().any(|c| text[place..].starts_with(c)) {
        told.notes.push("rules have no comments".to_owned());
    }
    if refusal.number == 1 && is_image(text) {
        told.notes.push("these look like the bytes of an image; rules are wanted here (`rolvenko show` and `check` read images)".to_owned());
    }
    told
}

/// 1: what stands there instead of a token.
fn no_token(text: &[u8], place: usize) -> String {
    match text[place..] {
        [0xef, 0xbb, 0xbf, ..] if place == 0 => "a byte order mark; save the file without it".to_owned(),
        [b'#', b'\r', ..] => "rows stand behind a line that is just `#`; this one ends with a carriage return".to_owned(),
        [b'#', ..] => "rows stand behind a line that is just `#`; there are no comments".to_owned(),
        [b'_', ..] => "no name stands directly behind it".to_owned(),
        [b'.', ..] => "a range has two".to_owned(),
        [byte, ..] => format!("{} is part of no token", character(text, place).unwrap_or_else(|| printed(byte))),
        [] => String::new(),
    }
}

/// The character that stands there, where it is one to be seen outside ASCII.
fn character(text: &[u8], place: usize) -> Option<String> {
    let spelled = std::str::from_utf8(&text[place..token_end(text, place)]).ok()?;
    (!spelled.is_ascii() && spelled.chars().all(char::is_alphanumeric)).then(|| format!("`{spelled}`"))
}

/// Words of the grammar, which are no names in any letter case.
const WORDS: [&str; 11] = ["input", "var", "init", "mod", "GX", "timer", "of", "limit", "watch", "G", "X"];

/// Signs that begin a comment elsewhere.
const COMMENTS: [&[u8]; 4] = [b"//", b"/*", b"--", b"(*"];

/// 3: the limit that a number, or the start that is not there, breaks.
fn number(text: &[u8], place: usize) -> String {
    let before = tokens(&text[..place]);
    let back = |n: usize| before.len().checked_sub(n).map_or(&b""[..], |i| before[i].of(text));
    let spelled = &text[place..token_end(text, place)];
    if spelled == b";" {
        return "the start is 0 where no `init` stands, and that is outside the range".to_owned();
    }
    let digits = String::from_utf8_lossy(spelled).into_owned();
    let least = if back(1) == b"-" { 2_147_483_648 } else { 2_147_483_647 };
    let wide = digits.parse::<u64>().map_or(true, |n| n > least);
    let after = if back(1) == b"-" { back(2) } else { back(1) };
    match after {
        _ if wide && after != b"limit" => "outside 32 bits".to_owned(),
        b".." => "below the low of its range".to_owned(),
        b"init" => "outside the range".to_owned(),
        b"limit" => "a limit is 1 to 2,147,483,647 milliseconds".to_owned(),
        _ => "out of its limit".to_owned(),
    }
}

/// 4: declared twice, or not at all.
fn name(text: &[u8], place: usize, spelled: &[u8], told: &mut Told) -> String {
    let spelled = String::from_utf8_lossy(spelled);
    if let Some(first) = declared(&text[..place]).into_iter().find(|d| d.name.eq_ignore_ascii_case(&spelled)) {
        told.elsewhere = Some((first.at, first.at + first.name.len(), "first here".to_owned()));
        return "declared twice".to_owned();
    }
    ask::nearest(&text[..place], &spelled).map_or("not declared".to_owned(), |n| format!("not declared; is `{n}` meant?"))
}

/// 6: a rule too many, or too few.
fn rule(text: &[u8], place: usize, spelled: &[u8]) -> String {
    if place == text.len() {
        let missing = ask::without_rule(text);
        return if missing.is_empty() { "a variable has no rule".to_owned() } else { format!("no rule for {}", missing.join(", ")) };
    }
    match sort_of(text, place, spelled) {
        Some(Sort::Input) => "an input",
        Some(Sort::Timer) => "a timer, which is worked behind the rule of its variable",
        _ => "has a rule already",
    }
    .to_owned()
}

/// What a name is declared as before a place.
fn sort_of(text: &[u8], place: usize, spelled: &[u8]) -> Option<Sort> {
    let names = declared(&text[..place]);
    names.iter().find(|d| d.name.as_bytes().eq_ignore_ascii_case(spelled)).map(|d| d.sort)
}

/// 5: which rule is missing before a current value.
fn too_early(text: &[u8], place: usize, spelled: &[u8]) -> &'static str {
    match sort_of(text, place, spelled) {
        Some(Sort::Timer) => "a timer, and the rule of its variable does not stand before this one",
        _ => "its rule does not stand before this one",
    }
}

/// 23: why a timer cannot be one of this name.
fn not_watched(text: &[u8], place: usize, spelled: &[u8]) -> &'static str {
    match sort_of(text, place, spelled) {
        Some(Sort::Input) => "an input",
        Some(Sort::Timer) => "a timer",
        _ => "its range is not 0..1",
    }
}

/// 8: which count is over.
fn limit(spelled: &[u8]) -> String {
    let name = spelled.strip_prefix(b"_").unwrap_or(spelled);
    match spelled {
        b"(" => "the 17th open bracket".to_owned(),
        b"[" => "the 17th open bracket, or the 33rd case".to_owned(),
        _ if name.len() > 16 => format!("{} bytes, and a name has at most 16", name.len()),
        _ => "the 65th name".to_owned(),
    }
}
