//! Why a text is no value, and what to write instead.

use super::blanks::trim;
use crate::library::{self, refusal, token, Edition};
use crate::terminal::escaped;

/// A text that starts like a word and has another byte at `at`.
pub fn no_word(text: &[u8], at: usize) -> String {
    match text[at] {
        b' ' | b'\t' if text.contains(&b'"') || text.contains(&b'\'') => {
            "more than one word; a string has its quotes round all of it".into()
        }
        b' ' | b'\t' => format!(
            "more than one word; write \"{0}\", for a shell '\"{0}\"'",
            escaped(text)
        ),
        _ => {
            let byte = escaped(&text[at..=at]);
            format!("{byte} in a word; a string that holds it goes into quotes")
        }
    }
}

/// A text that is no literal.
pub fn no_literal(text: &[u8]) -> String {
    let found = library::tokens(text, Edition::New);
    let first = found.read.first();
    let refusal = found.refusal.map(|refusal| refusal.number);
    match (refusal, first.filter(|first| is_literal(first.code))) {
        (Some(refusal::EXPRESSION_LONG), _) => format!(
            "a value of {} bytes, and at most 1,024 are read",
            text.len()
        ),
        (Some(refusal::LITERAL_LARGE), _) => "a number above 2^64 - 1".into(),
        (_, Some(first)) => {
            let (value, rest) = text.split_at(first.len);
            let (value, rest) = (escaped(value), escaped(trim(rest)));
            format!("{rest} after {value}; a setting has one value, and a string goes into quotes")
        }
        _ => no_literal_at_start(text),
    }
}

fn is_literal(code: u8) -> bool {
    matches!(
        code,
        token::NUMBER | token::TRUTH | token::STRING | token::WIDE
    )
}

/// A text that does not even start with a literal.
fn no_literal_at_start(text: &[u8]) -> String {
    let all = escaped(text);
    match text {
        [b'$', ..] => format!("{all}: macros are not replaced in a setting"),
        [b'-', b'0'..=b'9', ..] => format!("{all}: no number is below 0"),
        [b'0'..=b'9', ..] => {
            format!(
                "{all} is no number: decimal without a 0 in front, or 0x and hexadecimal digits"
            )
        }
        [b'"' | b'\'' | b'L', rest @ ..] if rest.iter().any(|byte| b"\r\n".contains(byte)) => {
            "a line end in a string".into()
        }
        [b'"' | b'\'' | b'L', ..] => "the closing quote is missing".into(),
        _ => format!("{all} is no value: a number, a truth word or a word, or a string in quotes"),
    }
}
