//! Values and bytes as text.

use super::json::Json;
use crate::library::Value;

/// Double quotes, or single ones for a string that has double quotes and no single ones.
pub fn quote_for(value: &Value) -> u8 {
    match value {
        Value::String(string) | Value::Wide(string)
            if string.contains(&b'"') && !string.contains(&b'\'') =>
        {
            b'\''
        }
        _ => b'"',
    }
}

/// A number in decimal, a string in these quotes, a wide one with `L` before them.
pub fn push_literal(text: &mut Vec<u8>, value: &Value, quote: u8) {
    let (start, string) = match value {
        Value::Number(number) => return text.extend(number.to_string().bytes()),
        Value::String(string) => ("", string),
        Value::Wide(string) => ("L", string),
    };
    text.extend(start.bytes());
    text.push(quote);
    text.extend(*string);
    text.push(quote);
}

/// A value for --json. A number has its digits as a text too, since there are parsers that round.
pub fn json_of_value(value: &Value) -> Json {
    let kind = ("kind", Json::text(value.kind()));
    Json::Object(match value {
        Value::Number(number) => vec![
            kind,
            ("number", Json::Number(*number)),
            ("text", Json::text(number.to_string())),
        ],
        Value::String(string) | Value::Wide(string) => vec![kind, ("text", Json::text(string))],
    })
}

/// Each byte as two digits, with this between them.
pub fn hexadecimal(bytes: &[u8], between: &str) -> String {
    let digits: Vec<String> = bytes.iter().map(|byte| format!("{byte:02x}")).collect();
    digits.join(between)
}
