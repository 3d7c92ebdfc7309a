//! Tokens of a text, "read by longest match", and the sameness of names (A.2).

use crate::features;

/// The kind of a token.
#[derive(Clone, Copy, Debug, PartialEq, Eq)]
pub enum Kind {
    Name,
    /// `_` directly before a name; the spelling includes the `_`.
    Previous,
    Digits,
    Input,
    Var,
    Init,
    Mod,
    Gx,
    Timer,
    Of,
    Limit,
    Watch,
    G,
    X,
    /// A grammar word in another letter case (A.2): the grammar allows it nowhere.
    OtherCase,
    DotDot,
    Arrow,
    LessEqual,
    GreaterEqual,
    Unequal,
    Semicolon,
    Colon,
    OpenRound,
    CloseRound,
    OpenSquare,
    CloseSquare,
    Not,
    And,
    Or,
    Equal,
    Less,
    Greater,
    Plus,
    Minus,
    Star,
    Slash,
    /// "byte of no token, lone `_` or `.`"
    Bad,
    /// End of the text; its place is the length of the text.
    End,
}

#[derive(Clone, Copy, Debug, PartialEq, Eq)]
pub struct Token<'t> {
    pub kind: Kind,
    pub place: usize,
    pub spelling: &'t [u8],
}

impl<'t> Token<'t> {
    /// The bytes of the name in a `Name` or `Previous` token.
    pub fn name(&self) -> &'t [u8] {
        match self.kind {
            Kind::Previous => &self.spelling[1..],
            _ => self.spelling,
        }
    }

    /// Whether both lists of conditions may have these tokens at one place: "equal token by
    /// token in spelling", names by their sameness.
    pub fn agrees(&self, other: &Token) -> bool {
        match self.kind {
            Kind::Name | Kind::Previous => {
                other.kind == self.kind && same_names(self.name(), other.name())
            }
            _ => other.spelling == self.spelling,
        }
    }
}

/// The first token at or after byte `from`: "space, tab, CR and LF separate".
pub fn next_token(text: &[u8], from: usize) -> Token<'_> {
    let mut place = from;
    while place < text.len() && matches!(text[place], b' ' | b'\t' | b'\r' | b'\n') {
        place += 1;
    }
    let (kind, length) = longest(&text[place..]);
    Token {
        kind,
        place,
        spelling: &text[place..place + length],
    }
}

/// All tokens of a text, without the `End`.
pub fn tokens(text: &[u8]) -> Vec<Token<'_>> {
    let mut list = Vec::new();
    let mut token = next_token(text, 0);
    while token.kind != Kind::End {
        list.push(token);
        token = next_token(text, token.place + token.spelling.len());
    }
    list
}

/// Kind and length of the longest token at the front of `rest`.
fn longest(rest: &[u8]) -> (Kind, usize) {
    let Some(&first) = rest.first() else {
        return (Kind::End, 0);
    };
    match first {
        b'a'..=b'z' | b'A'..=b'Z' => name_or_word(rest),
        b'0'..=b'9' => (Kind::Digits, run(rest, u8::is_ascii_digit)),
        b'_' => previous(rest),
        _ => symbol(first, rest.get(1).copied()),
    }
}

/// Length of the longest front part of `rest` whose bytes all are of the class.
fn run(rest: &[u8], class: fn(&u8) -> bool) -> usize {
    rest.iter()
        .position(|byte| !class(byte))
        .unwrap_or(rest.len())
}

/// "A name is a letter, then letters or digits (ASCII)"; "a longer run is a name too".
fn name_or_word(rest: &[u8]) -> (Kind, usize) {
    let length = run(rest, u8::is_ascii_alphanumeric);
    let spelling = &rest[..length];
    let kind = match words().find(|word| same_names(word.0, spelling)) {
        Some((word, kind)) if word == spelling => kind,
        // "a grammar word in another case is 2 wherever it stands, but directly after `_`
        // the `_` is lone, 1"
        Some(_) => Kind::OtherCase,
        None => Kind::Name,
    };
    (kind, length)
}

/// A word of the grammar and the kind of its token.
type Word = (&'static [u8], Kind);

/// "Words of the grammar, no names: `input var init mod GX`."
const WORDS: [Word; 5] = [
    (b"input", Kind::Input),
    (b"var", Kind::Var),
    (b"init", Kind::Init),
    (b"mod", Kind::Mod),
    (b"GX", Kind::Gx),
];

/// A.7: "`timer`, `of` and `limit` become grammar words."
const TIMER_WORDS: [Word; 3] = [
    (b"timer", Kind::Timer),
    (b"of", Kind::Of),
    (b"limit", Kind::Limit),
];

/// A.13: "`watch`, `G` and `X` become grammar words."
const WATCH_WORDS: [Word; 3] = [(b"watch", Kind::Watch), (b"G", Kind::G), (b"X", Kind::X)];

/// The words of the grammar with the requests that are on.
pub fn words() -> impl Iterator<Item = Word> {
    let features = features::in_force();
    let timers = TIMER_WORDS.into_iter().filter(move |_| features.timers);
    let watches = WATCH_WORDS.into_iter().filter(move |_| features.watches);
    WORDS.into_iter().chain(timers).chain(watches)
}

/// "names are the same when their bytes are the same"; by A.2 "Names are now the same when
/// they agree with a to z read as A to Z".
pub fn same_names(left: &[u8], right: &[u8]) -> bool {
    if features::in_force().names_without_case {
        left.eq_ignore_ascii_case(right)
    } else {
        left == right
    }
}

/// "`_` directly before a name makes a previous-value token; before anything else,
/// a word of the grammar included, it is lone."
fn previous(rest: &[u8]) -> (Kind, usize) {
    let after = &rest[1..];
    if after.first().is_some_and(u8::is_ascii_alphabetic) {
        if let (Kind::Name, length) = name_or_word(after) {
            return (Kind::Previous, 1 + length);
        }
    }
    (Kind::Bad, 1)
}

/// "`..` `->` `<=` `>=` `<>` and `; : ( ) [ ] ~ & | = < > + - * /`"
fn symbol(first: u8, second: Option<u8>) -> (Kind, usize) {
    match (first, second) {
        (b'.', Some(b'.')) => (Kind::DotDot, 2),
        (b'-', Some(b'>')) => (Kind::Arrow, 2),
        (b'<', Some(b'=')) => (Kind::LessEqual, 2),
        (b'>', Some(b'=')) => (Kind::GreaterEqual, 2),
        (b'<', Some(b'>')) => (Kind::Unequal, 2),
        _ => (single(first), 1),
    }
}

fn single(byte: u8) -> Kind {
    match byte {
        b';' => Kind::Semicolon,
        b':' => Kind::Colon,
        b'(' => Kind::OpenRound,
        b')' => Kind::CloseRound,
        b'[' => Kind::OpenSquare,
        b']' => Kind::CloseSquare,
        b'~' => Kind::Not,
        b'&' => Kind::And,
        b'|' => Kind::Or,
        b'=' => Kind::Equal,
        b'<' => Kind::Less,
        b'>' => Kind::Greater,
        b'+' => Kind::Plus,
        b'-' => Kind::Minus,
        b'*' => Kind::Star,
        b'/' => Kind::Slash,
        _ => Kind::Bad,
    }
}

#[cfg(test)]
mod tests {
    use super::*;
    use crate::Features;

    fn spellings(text: &str) -> Vec<String> {
        tokens(text.as_bytes())
            .iter()
            .map(|t| String::from_utf8_lossy(t.spelling).into_owned())
            .collect()
    }

    fn kinds(text: &[u8]) -> Vec<Kind> {
        tokens(text).iter().map(|t| t.kind).collect()
    }

    #[test]
    fn longest_match() {
        assert_eq!(spellings("a_b"), ["a", "_b"]);
        assert_eq!(spellings("1a"), ["1", "a"]);
        assert_eq!(spellings("..."), ["..", "."]);
        assert_eq!(spellings("1->2"), ["1", "->", "2"]);
        assert_eq!(spellings("<->"), ["<", "->"]);
        assert_eq!(spellings("v0..1"), ["v0", "..", "1"]);
        assert_eq!(spellings("<=>=<>=="), ["<=", ">=", "<>", "=", "="]);
        assert_eq!(spellings("--> ->-"), ["-", "->", "->", "-"]);
    }

    #[test]
    fn underscore() {
        assert_eq!(kinds(b"_modx"), [Kind::Previous]);
        assert_eq!(kinds(b"_mod"), [Kind::Bad, Kind::Mod]);
        assert_eq!(kinds(b"_GX"), [Kind::Bad, Kind::Gx]);
        assert_eq!(kinds(b"_ a"), [Kind::Bad, Kind::Name]);
        assert_eq!(kinds(b"__a"), [Kind::Bad, Kind::Previous]);
        assert_eq!(kinds(b"_1"), [Kind::Bad, Kind::Digits]);
        assert_eq!(kinds(b"_"), [Kind::Bad]);
        assert_eq!(tokens(b"_ab1")[0].name(), b"ab1");
    }

    #[test]
    fn words_in_another_case() {
        let cased = Features {
            names_without_case: false,
            ..Features::ALL
        };
        features::with(cased, || {
            assert_eq!(
                kinds(b"_gx gx Mod"),
                [Kind::Previous, Kind::Name, Kind::Name]
            );
        });
        features::with(Features::ALL, || {
            let found = kinds(b"_gx GX Mod _GXx");
            let wanted = [Kind::Bad, Kind::OtherCase, Kind::Gx, Kind::OtherCase];
            assert_eq!(found[..4], wanted);
            assert_eq!(found[4..], [Kind::Previous]);
        });
    }

    #[test]
    fn bytes_of_no_token() {
        let symbols = b"; : ( ) [ ] ~ & | = < > + - * /";
        for byte in 0..=255u8 {
            let separates = matches!(byte, b' ' | b'\t' | b'\r' | b'\n');
            let good = byte.is_ascii_alphanumeric() || symbols.contains(&byte);
            let found = kinds(&[byte]);
            if separates {
                assert_eq!(found, []);
            } else {
                assert_eq!(found.len(), 1);
                assert_eq!(found[0] != Kind::Bad, good, "byte {byte}");
            }
        }
    }

    #[test]
    fn places_and_end() {
        let text = b" \t\r\nab ";
        assert_eq!(tokens(text)[0].place, 4);
        let end = next_token(text, 6);
        assert_eq!((end.kind, end.place), (Kind::End, 7));
    }
}
