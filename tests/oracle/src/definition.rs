//! DEFINE lines: their first word and their shape (document 02, order 6).

use crate::bytes::{count_while, is_run, macro_length, skip_blanks};
use crate::table::NAME;

/// The macro that a DEFINE line sets, and the expression that gives its value:
/// all that follows the `=`.
#[derive(Clone, Copy, Debug, PartialEq, Eq)]
pub struct Definition<'a> {
    pub name: &'a [u8],
    pub expression: &'a [u8],
}

/// What follows the first word of the line, if that is `DEFINE`. The word is
/// the whole run at the first byte that is no blank.
pub fn after_define(line: &[u8]) -> Option<&[u8]> {
    let text = skip_blanks(line);
    let (word, rest) = text.split_at(count_while(text, is_run));
    (word == b"DEFINE").then_some(rest)
}

/// Takes apart what follows the word, or none if it has another shape. A name
/// right after the word needs no check, since it would be part of the word.
pub fn shape(after_word: &[u8]) -> Option<Definition<'_>> {
    let text = skip_blanks(after_word);
    let (name, rest) = text.split_at(macro_length(text));
    let expression = skip_blanks(rest).strip_prefix(b"=")?;
    let fits = (1..=NAME).contains(&name.len());
    fits.then_some(Definition { name, expression })
}
