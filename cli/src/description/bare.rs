//! Bare words, which only the old edition reads.

use super::directive::first_byte;
use super::expression::expression_of_line;
use crate::library::{self, token, Edition};

/// A bare word and its offset.
type Found<'a> = (usize, &'a [u8]);

/// The bare words of an expression.
pub fn bare_words(expression: &[u8]) -> Vec<Found<'_>> {
    let mut tokens = library::tokens(expression, Edition::Old).read;
    tokens.retain(|token| token.code == token::BARE);
    let word = |at: usize, len| (at, &expression[at..][..len]);
    tokens
        .iter()
        .map(|each| word(each.start, each.len))
        .collect()
}

/// Whether a letter or `_` follows what may be an equality operator: without one there is no bare word, and most conditions need not be cut
/// into tokens once more.
fn may_have_some(expression: &[u8]) -> bool {
    let is_operator = |two: &[u8]| matches!(two, b"==" | b"!=" | b"EQ" | b"NE");
    let is_first = |byte: &u8| byte.is_ascii_alphabetic() || *byte == b'_';
    let mut pairs = expression.windows(2).enumerate();
    pairs.any(|(at, two)| {
        let after = &expression[at + 2..];
        is_operator(two) && after.get(first_byte(after)).is_some_and(is_first)
    })
}

/// The bare words of a line's expression, with their offsets in the line.
pub fn bare_words_of_line(line: &[u8]) -> Vec<Found<'_>> {
    let Some((at, argument)) = expression_of_line(line).filter(|(_, text)| may_have_some(text))
    else {
        return Vec::new();
    };
    let mut words = bare_words(argument);
    words.iter_mut().for_each(|(start, _)| *start += at);
    words
}
