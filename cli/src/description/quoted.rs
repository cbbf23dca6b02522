//! Macros in quotes, which EDK II's build tools replace and the rules do not.

use super::expression::expression_of_line;
use super::mentions::is_macro_name;
use crate::library::{self, token, Edition};

/// The names in the strings of a line's expression, each with the offset of its `$(` in the line. The line is accepted, so its tokens are
/// those of the old edition in any case.
pub fn quoted_macros(line: &[u8]) -> Vec<(usize, &[u8])> {
    let mut names = Vec::new();
    let has_quotes = |text: &[u8]| text.iter().any(|byte| matches!(byte, b'"' | b'\''));
    let Some((at, argument)) = expression_of_line(line).filter(|(_, text)| has_quotes(text)) else {
        return names;
    };
    for token in library::tokens(argument, Edition::Old).read {
        if matches!(token.code, token::STRING | token::WIDE) {
            let start = at + token.start;
            names.extend(in_string(&line[start..][..token.len], start));
        }
    }
    names
}

/// The names in a string that starts at an offset.
fn in_string(string: &[u8], offset: usize) -> impl Iterator<Item = (usize, &[u8])> {
    let starts = (0..string.len()).filter(|at| string[*at..].starts_with(b"$("));
    starts.filter_map(move |at| {
        let name = string[at + 2..].split(|byte| *byte == b')').next()?;
        is_macro_name(name).then_some((offset + at, name))
    })
}
