//! The value of a setting: what the library reads as one literal, or a word without quotes. It is the same in both editions.

use super::hints;
use crate::library::{single_token, token, Value};

/// The value of a text without blanks at its ends, or why it has none.
pub fn parse(text: &[u8]) -> Result<Value<'_>, String> {
    match text {
        [] => Err("no value; an empty string is \"\", for a shell '\"\"'".into()),
        [b'L', b'"' | b'\'', ..] => literal(text),
        [b'A'..=b'Z' | b'a'..=b'z' | b'_', ..] => word(text),
        _ => literal(text),
    }
}

fn literal(text: &[u8]) -> Result<Value<'_>, String> {
    let no_literal = || hints::no_literal(text);
    let token = single_token(text).ok_or_else(no_literal)?;
    // The quotes are left off.
    match token.code {
        token::NUMBER => Ok(Value::Number(token.value)),
        token::STRING => Ok(Value::String(&text[1..text.len() - 1])),
        token::WIDE => Ok(Value::Wide(&text[2..text.len() - 1])),
        _ => Err(no_literal()),
    }
}

/// A word without quotes: a truth word is a number, any other a string.
fn word(text: &[u8]) -> Result<Value<'_>, String> {
    if let Some(at) = text.iter().position(|byte| !is_in_word(*byte)) {
        return Err(hints::no_word(text, at));
    }
    let truth = single_token(text).filter(|token| token.code == token::TRUTH);
    Ok(truth.map_or(Value::String(text), |token| Value::Number(token.value)))
}

/// Whether a byte may be in a word.
fn is_in_word(byte: u8) -> bool {
    byte.is_ascii_alphanumeric() || b"_.-+/\\:,".contains(&byte)
}
