//! `st`: rules as Structured Text, the text language of IEC 61131-3, for controllers that load it (document 02, A.4).

use crate::explain;
use crate::output::Output;
use crate::source::Rules;
use crate::stop::{tell, Stop};
use crate::text::{declared, line_column};
use rolvenko::{structured_text, ST_ROOM};
use std::path::Path;

/// Keywords of the whole standard beside the words used here. (Those that hold a `_`, and OF, are no names of rules.)
const KEYWORDS: [&str; 56] = [
    "ACTION", "ARRAY", "AT", "BOOL", "BY", "BYTE", "CASE", "CONFIGURATION", "CONSTANT", "DATE", "DO", "DT", "DWORD", "ELSE", "EN", "ENO", "EXIT", "FALSE", "FOR",
    "FROM", "FUNCTION", "INT", "INTERVAL", "LINT", "LREAL", "LWORD", "ON", "PRIORITY", "PROGRAM", "REAL", "REPEAT", "RESOURCE", "RETAIN", "RETURN", "SINGLE", "SINT",
    "STEP", "STRING", "STRUCT", "TASK", "TIME", "TO", "TOD", "TRANSITION", "TRUE", "TYPE", "UDINT", "UINT", "ULINT", "UNTIL", "USINT", "WHILE", "WITH", "WORD", "WSTRING", "XOR",
];

pub fn st(path: &Path, output: Option<&Path>) -> Result<(), Stop> {
    let rules = Rules::read(path)?;
    let mut printed = vec![0; ST_ROOM];
    let length = structured_text(&rules.text, &mut printed).map_err(|refusal| {
        tell(&explain::text_refused(&rules.path, &rules.text, refusal));
        Stop::Refused
    })?;
    let mut to = Output::open(output.unwrap_or(Path::new("-")), &[path.to_owned()])?;
    tell(&notes(&rules));
    to.put(&printed[..length])?;
    to.end()
}

/// Names print as declared. Of each that is such a keyword: that a compiler may not take it.
fn notes(rules: &Rules) -> String {
    let note = |at: usize, name: &str| {
        let keyword = KEYWORDS.iter().find(|word| word.eq_ignore_ascii_case(name))?;
        let (line, column) = line_column(&rules.text, at);
        Some(format!("{}:{line}:{column}: note: {keyword} is a keyword of IEC 61131-3; a compiler of the whole standard does not take it as a name\n", rules.path.display()))
    };
    declared(&rules.text).iter().filter_map(|d| note(d.at, &d.name)).collect()
}

#[cfg(test)]
mod tests {
    use super::*;

    #[test]
    fn every_keyword_is_printed_as_a_name() {
        assert!(KEYWORDS.is_sorted());
        for word in KEYWORDS {
            let text = format!("input {word} 0..1;");
            assert!(structured_text(text.as_bytes(), &mut [0; 256]).is_ok(), "{word}");
        }
    }
}
