//! Values of expressions and of their parts, as messages name them.

use super::brief::brief;
use crate::library::{self, Terms, Value};
use crate::terminal::{push_literal, quote_for};

/// An expression without blanks and comments at its ends.
pub fn stripped<'a>(expression: &'a [u8], terms: Terms) -> &'a [u8] {
    let tokens = library::tokens(expression, terms.edition).read;
    match (tokens.first(), tokens.last()) {
        (Some(first), Some(last)) => &expression[first.start..last.start + last.len],
        _ => b"",
    }
}

/// What is made of the value of an expression. It is evaluated in parentheses, where bars are accepted in any case; an expression at a
/// limit has no room for them, and then nothing is said of it.
fn with_value<T>(expression: &[u8], terms: Terms, made: impl Fn(Value) -> T) -> Option<T> {
    let inside = [b"(", stripped(expression, terms), b")"].concat();
    let found = library::evaluate(&inside, terms).ok()?;
    Some(made(found.value))
}

/// The value of an expression if it is a number.
pub fn number(expression: &[u8], terms: Terms) -> Option<u64> {
    with_value(expression, terms, |value| match value {
        Value::Number(number) => Some(number),
        _ => None,
    })?
}

/// The value of an expression in words.
pub fn described(expression: &[u8], terms: Terms) -> Option<String> {
    with_value(expression, terms, |value| {
        let mut literal = Vec::new();
        push_literal(&mut literal, &value, quote_for(&value));
        format!("the {} {}", value.kind(), brief(&literal))
    })
}
