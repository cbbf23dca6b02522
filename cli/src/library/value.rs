//! The values of expressions and settings.

/// A value; a string's bytes are those of the expression or the table.
#[derive(PartialEq)]
pub enum Value<'a> {
    Number(u64),
    String(&'a [u8]),
    Wide(&'a [u8]),
}

impl Value<'_> {
    /// The kind in words.
    pub fn kind(&self) -> &'static str {
        match self {
            Value::Number(_) => "number",
            Value::String(_) => "string",
            Value::Wide(_) => "wide string",
        }
    }
}
