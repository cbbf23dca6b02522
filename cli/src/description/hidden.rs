//! Lines that look like directives or `DEFINE` lines and are plain, since something that is neither a blank nor a tab comes before their
//! first word: a form feed, a blank of another sort, a byte order mark.

use super::define::define;
use super::directive::{directive, first_byte};

/// The words with which a line is no plain text, or is noted.
const WORDS: [&[u8]; 9] = [
    b"if", b"ifdef", b"ifndef", b"elseif", b"elif", b"else", b"endif", b"include", b"error",
];

pub enum Hidden<'a> {
    /// A directive, with its word.
    Directive(&'a [u8]),
    Define,
}

/// What such a line hides, and the offset of what makes it plain.
pub fn hidden(line: &[u8]) -> Option<(Hidden<'_>, usize)> {
    let seen = line.iter().position(u8::is_ascii_graphic)?;
    let odd = first_byte(line);
    if odd >= seen {
        return None;
    }
    let rest = &line[seen..];
    let found = match directive(rest) {
        Some(found) => WORDS
            .contains(&found.word)
            .then_some(Hidden::Directive(found.word)),
        None => define(rest).map(|_| Hidden::Define),
    };
    found.map(|found| (found, odd))
}
