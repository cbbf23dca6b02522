//! A setting as people write it: `NAME=VALUE`, or `NAME` alone for 1.

use super::blanks::trim;
use super::literal;
use super::record::encode;
use crate::description::is_macro_name;
use crate::library::limit::MAX_NAME_BYTES;
use crate::library::{is_pcd, Value};
use crate::terminal::escaped;

/// A record, and where it was set.
pub struct Setting {
    pub record: Vec<u8>,
    pub place: String,
}

/// Why a text is no setting; `name` is there unless the name itself is wrong.
pub struct Fault {
    pub name: Option<String>,
    pub reason: String,
}

/// The record of a setting.
pub fn parse(text: &[u8]) -> Result<Vec<u8>, Fault> {
    let (name, value) = match text.iter().position(|byte| *byte == b'=') {
        Some(at) => (trim(&text[..at]), Some(trim(&text[at + 1..]))),
        None => (trim(text), None),
    };
    check_name(name).map_err(|reason| Fault { name: None, reason })?;
    let value = value.map_or(Ok(Value::Number(1)), literal::parse);
    let record = value.and_then(|value| encode(name, &value));
    record.map_err(|reason| Fault {
        name: Some(escaped(name)),
        reason,
    })
}

/// Whether a record can have this name, and if not, why.
fn check_name(name: &[u8]) -> Result<(), String> {
    if name.len() > MAX_NAME_BYTES {
        return Err(format!(
            "a name of {} bytes, and a record holds {MAX_NAME_BYTES}",
            name.len()
        ));
    }
    is_name(name).then_some(()).ok_or_else(|| no_name(name))
}

/// Whether the library reads a name as a macro's or as a PCD's.
pub fn is_name(name: &[u8]) -> bool {
    is_macro_name(name) || is_pcd(name)
}

/// What is said of a name that is none.
pub fn no_name(name: &[u8]) -> String {
    if name.is_empty() {
        return "no name".into();
    }
    let name = escaped(name);
    format!("{name} names no macro (A-Z, then A-Z, 0-9 and _) and no PCD (two words with a . between them)")
}
