//! JSON in one line.

mod text;

use std::str;

use text::quoted;

use super::literals::hexadecimal;

/// A value of JSON. The bytes of a text need not be UTF-8.
#[derive(Clone)]
pub enum Json {
    Null,
    Bool(bool),
    Number(u64),
    Text(Vec<u8>),
    List(Vec<Json>),
    Object(Members),
}

/// The members of an object, in the order in which they are written.
pub type Members = Vec<(&'static str, Json)>;

impl Json {
    pub fn text(text: impl AsRef<[u8]>) -> Json {
        Json::Text(text.as_ref().to_vec())
    }

    /// The value in one line, with its LF.
    pub fn line(&self) -> String {
        self.written() + "\n"
    }

    fn written(&self) -> String {
        match self {
            Json::Null => "null".into(),
            Json::Bool(value) => value.to_string(),
            Json::Number(number) => number.to_string(),
            Json::Text(text) => quoted(text),
            Json::List(values) => {
                let values: Vec<String> = values.iter().map(Json::written).collect();
                format!("[{}]", values.join(", "))
            }
            Json::Object(members) => {
                let members: Vec<String> = members.iter().map(member).collect();
                format!("{{{}}}", members.join(", "))
            }
        }
    }
}

/// A member, and after a text that is not UTF-8 a second one that has all of its bytes.
fn member((name, value): &(&'static str, Json)) -> String {
    let member = format!("\"{name}\": {}", value.written());
    match value {
        Json::Text(text) if str::from_utf8(text).is_err() => {
            format!("{member}, \"{name}_hex\": \"{}\"", hexadecimal(text, ""))
        }
        _ => member,
    }
}
