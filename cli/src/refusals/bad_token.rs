//! Bytes at which no token can be read (3).

use super::brief::brief;
use super::meant::{capitals, meant};
use crate::description::{bare_words, split_run};
use crate::library::{Edition, Terms};
use crate::terminal::characters;

/// What is at an offset instead of a token, and what to write.
pub fn no_token(expression: &[u8], terms: Terms, offset: usize) -> Option<String> {
    let (before, text) = expression.split_at_checked(offset)?;
    let (run, rest) = split_run(text);
    let first = characters(text).next()?.text;
    let hint = match (run, rest) {
        (b"L", [quote @ (b'"' | b'\''), ..]) | (b"", [quote @ (b'"' | b'\''), ..]) => {
            format!("the closing {} is missing", *quote as char)
        }
        ([b'0'..=b'9', ..], _) => format!(
            "{} is no number: decimal without a 0 in front, or 0x and hexadecimal digits",
            brief(run)
        ),
        ([_, ..], [b'.', ..]) => format!(
            "`{}.` starts no PCD, which is two words with a `.` between them; a string wants quotes",
            brief(run)
        ),
        // Where the old edition refuses a run, it is no bare word there.
        ([_, ..], _) if is_bare_word(expression, offset) => new_bare_word(run, terms),
        ([_, ..], _) => no_word(run, terms.edition),
        (_, [b'$', ..]) => {
            "a macro is $(NAME) without blanks; NAME is A-Z, then A-Z, 0-9 and _".into()
        }
        (_, [b'=', ..]) => "`=` is no operator; write `==` to compare".into(),
        (_, [b'\r' | b'\n', ..]) => format!("`{first}` starts no token, and no string can hold it"),
        _ if terms.edition == Edition::Old && ends_with_bare_word(before) => format!(
            "`{first}` starts no token; a bare word has letters, digits and `_` only, so a string with `{first}` in it wants quotes"
        ),
        _ => format!("`{first}` starts no token; in a string it goes into quotes"),
    };
    Some(hint)
}

/// Whether the old edition reads a bare word at an offset.
fn is_bare_word(expression: &[u8], offset: usize) -> bool {
    let words = bare_words(expression);
    words.iter().any(|(start, _)| *start == offset)
}

/// Whether an expression ends with a bare word.
fn ends_with_bare_word(expression: &[u8]) -> bool {
    let last = bare_words(expression).pop();
    last.is_some_and(|(start, word)| start + word.len() == expression.len())
}

/// A bare word where the new edition meets it.
fn new_bare_word(run: &[u8], terms: Terms) -> String {
    let (word, meant) = (brief(run), meant(run, terms));
    format!("`{word}` is a bare word, which the new edition refuses: write \"{word}\", or use --edition old{meant}")
}

/// A run that is no word of expressions: one in the wrong case, or a string without its quotes.
fn no_word(run: &[u8], edition: Edition) -> String {
    let word = brief(run);
    let said = format!("`{word}` is no word of expressions");
    match (capitals(run), edition) {
        _ if run.eq_ignore_ascii_case(b"IN") => {
            format!("`{word}` is no operator here; compare with `==`")
        }
        (Some(capitals), _) => format!("{said}; case matters: `{capitals}`"),
        (None, Edition::New) => format!("{said}; a string wants quotes: \"{word}\""),
        (None, Edition::Old) => format!(
            "{said}; a bare word is a string only right after `==`, `!=`, `EQ` or `NE`: write \"{word}\""
        ),
    }
}
