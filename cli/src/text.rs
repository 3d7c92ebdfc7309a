//! Tokens of a rule text, for carets and names: where one ends, which names are declared, where a variable's cases stand. What a text means
//! is asked of the archive; nothing here decides whether it is accepted.

/// The end of the token that begins at `at`; of a byte that begins none, the end of that character.
pub fn token_end(text: &[u8], at: usize) -> usize {
    let run = |from: usize| text[from..].iter().take_while(|b| b.is_ascii_alphanumeric()).count();
    match text[at..] {
        [] => at,
        [b'_', b, ..] if b.is_ascii_alphabetic() => at + 1 + run(at + 1),
        [b, ..] if b.is_ascii_alphabetic() => at + run(at),
        [b, ..] if b.is_ascii_digit() => at + text[at..].iter().take_while(|b| b.is_ascii_digit()).count(),
        [b'.', b'.', ..] | [b'-', b'>', ..] | [b'<', b'=', ..] | [b'>', b'=', ..] | [b'<', b'>', ..] => at + 2,
        [_, ..] => at + 1 + text[at + 1..].iter().take_while(|b| (0x80..0xC0).contains(*b)).count(),
    }
}

#[derive(Clone, Copy, Debug, PartialEq, Eq)]
pub struct Token {
    pub at: usize,
    pub end: usize,
}

impl Token {
    pub fn of<'t>(&self, text: &'t [u8]) -> &'t [u8] {
        &text[self.at..self.end]
    }
}

/// The tokens in turn.
pub fn tokens(text: &[u8]) -> Vec<Token> {
    let mut found = Vec::new();
    let mut at = 0;
    while at < text.len() {
        if matches!(text[at], b' ' | b'\t' | b'\r' | b'\n') {
            at += 1;
        } else {
            let end = token_end(text, at);
            found.push(Token { at, end });
            at = end;
        }
    }
    found
}

#[derive(Clone, Copy, Debug, PartialEq, Eq)]
pub enum Sort {
    Input,
    Variable,
    Timer,
}

#[derive(Clone, Debug, PartialEq, Eq)]
pub struct Declared {
    pub name: String,
    pub at: usize,
    pub sort: Sort,
}

/// The names that an accepted text declares, in order; of another text, those before its fault.
pub fn declared(text: &[u8]) -> Vec<Declared> {
    let all = tokens(text);
    all.windows(2)
        .filter_map(|pair| {
            let sort = match pair[0].of(text) {
                b"input" => Sort::Input,
                b"var" => Sort::Variable,
                b"timer" => Sort::Timer,
                _ => return None,
            };
            let name = String::from_utf8_lossy(pair[1].of(text)).into_owned();
            Some(Declared { name, at: pair[1].at, sort })
        })
        .collect()
}

/// So many of something, in words.
pub fn count(n: usize, what: &str) -> String {
    format!("{n} {what}{}", if n == 1 { "" } else { "s" })
}

/// Line and column of a place, from 1; columns count characters.
pub fn line_column(text: &[u8], place: usize) -> (usize, usize) {
    let before = &text[..place.min(text.len())];
    let line = before.iter().filter(|b| **b == b'\n').count() + 1;
    let start = before.iter().rposition(|b| *b == b'\n').map_or(0, |p| p + 1);
    (line, String::from_utf8_lossy(&before[start..]).chars().count() + 1)
}

/// The parts of an accepted text that spell the cases of `variable`, each from its `[` to the `)` that ends it; of a pair, the rising ones first.
pub fn cases(text: &[u8], variable: &str) -> Vec<Token> {
    let all = tokens(text);
    let spelled = |i: usize| all.get(i).map_or(&b""[..], |t| t.of(text));
    let is_rule = |i: usize| {
        let sign = usize::from(matches!(spelled(i + 1), b"+" | b"-"));
        spelled(i).eq_ignore_ascii_case(variable.as_bytes()) && spelled(i + 1 + sign) == b":"
    };
    let mut found = Vec::new();
    for rule in (0..all.len()).filter(|i| is_rule(*i)) {
        // the list stands behind the arrow; a no-change formula has `~` there, a function no arrow
        let mut i = (rule..all.len()).find(|i| matches!(spelled(*i), b"->" | b";")).map_or(all.len(), |i| i + 1);
        while spelled(i) == b"[" {
            let first = all[i].at;
            let behind = closing(text, &all, i);
            // `&`, the variable and `=` stand before the bracket of the new value
            let last = closing(text, &all, behind + 4);
            found.push(Token { at: first, end: all[last.min(all.len() - 1)].end });
            i = last + 1 + usize::from(spelled(last + 1) == b"|");
        }
    }
    found
}

/// A watch of an accepted text: its tokens from `watch` to `;` as one, and those of its conditions.
#[derive(Clone, Debug, PartialEq, Eq)]
pub struct Watch {
    pub whole: Token,
    pub first: Vec<Token>,
    pub later: Option<Vec<Token>>,
}

/// The watches of an accepted text, in order.
pub fn watches(text: &[u8]) -> Vec<Watch> {
    let all = tokens(text);
    let begins = (0..all.len()).filter(|i| all[*i].of(text) == b"watch");
    begins
        .map(|from| {
            let end = (from..all.len()).find(|i| all[*i].of(text) == b";").unwrap_or(all.len() - 1);
            let part = &all[from..=end];
            let arrow = part.iter().position(|t| t.of(text) == b"->");
            Watch {
                whole: Token { at: all[from].at, end: all[end].end },
                first: part[..arrow.unwrap_or(part.len())].to_vec(),
                later: arrow.map(|i| part[i..].to_vec()),
            }
        })
        .collect()
}

/// White space as one space each.
pub fn one_line(bytes: &[u8]) -> String {
    String::from_utf8_lossy(bytes).split_whitespace().collect::<Vec<_>>().join(" ")
}

/// The place, among the tokens, of the bracket that closes the one at `open`.
fn closing(text: &[u8], all: &[Token], open: usize) -> usize {
    let mut depth = 0usize;
    for (i, token) in all.iter().enumerate().skip(open) {
        match token.of(text) {
            b"(" | b"[" => depth += 1,
            b")" | b"]" if depth <= 1 => return i,
            b")" | b"]" => depth -= 1,
            _ => (),
        }
    }
    all.len()
}

#[cfg(test)]
mod tests {
    use super::*;

    fn spelled(text: &str) -> Vec<&str> {
        cases(text.as_bytes(), "v").iter().map(|t| &text[t.at..t.end]).collect()
    }

    #[test]
    fn cases_are_found_in_every_form_of_a_rule() {
        let change = "w: GX(w = (1)); V: GX(~(v = _v) -> [[a = 1]] & v = ((1)) | [_v = 0] & v = (2)); v: GX(v = _v -> ~([[a = 1]] | [_v = 0]));";
        assert_eq!(spelled(change), ["[[a = 1]] & v = ((1))", "[_v = 0] & v = (2)"]);
        let pair = "v+: GX(v > _v -> [a = 1] & v = (_v + 1)); v-: GX(v < _v -> [a = 0] & v = (_v - 1) | [a = 2] & v = (0));";
        assert_eq!(spelled(pair), ["[a = 1] & v = (_v + 1)", "[a = 0] & v = (_v - 1)", "[a = 2] & v = (0)"]);
        let watched = "v: GX(v = (1)); watch: G([v = 1]);\nwatch: G([_v = 0]\n-> X([v = 1]));";
        let found = watches(watched.as_bytes());
        let whole: Vec<String> = found.iter().map(|w| one_line(w.whole.of(watched.as_bytes()))).collect();
        assert_eq!(whole, ["watch: G([v = 1]);", "watch: G([_v = 0] -> X([v = 1]));"]);
        assert_eq!(found.iter().map(|w| w.later.is_some()).collect::<Vec<_>>(), [false, true]);
        assert_eq!(spelled("v: GX(v = (1)); w: GX(~(w = _w) -> [a = 1] & w = (1)); w: GX(w = _w -> ~([a = 1]));"), [""; 0]);
    }
}
