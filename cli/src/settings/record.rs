//! One record of a table of settings: the name in 64 bytes, the kind, the length, six zeros, and the content in 56 bytes.

use crate::library::limit::{MAX_CONTENT_BYTES, MAX_NAME_BYTES, RECORD_BYTES};
use crate::library::{kind, Value};

const KIND_AT: usize = 64;
const LENGTH_AT: usize = 65;
const CONTENT_AT: usize = 72;

/// The record of a value under a name of at most 64 bytes, or why there is none.
pub fn encode(name: &[u8], value: &Value) -> Result<Vec<u8>, String> {
    let number;
    let (kind, content) = match value {
        Value::Number(value) => {
            number = value.to_le_bytes();
            (kind::NUMBER, number.as_slice())
        }
        Value::String(string) => (kind::STRING, *string),
        Value::Wide(string) => (kind::WIDE, *string),
    };
    let length = content.len();
    if length > MAX_CONTENT_BYTES {
        return Err(format!(
            "a string of {length} bytes, and a record holds {MAX_CONTENT_BYTES}"
        ));
    }
    let mut record = vec![0; RECORD_BYTES];
    record[..name.len()].copy_from_slice(name);
    record[KIND_AT] = kind as u8;
    record[LENGTH_AT] = length as u8;
    record[CONTENT_AT..][..length].copy_from_slice(content);
    Ok(record)
}

/// The records of a table.
pub fn records(table: &[u8]) -> impl Iterator<Item = &[u8]> {
    table.chunks(RECORD_BYTES)
}

/// The name of a record, without its padding.
pub fn stored_name(record: &[u8]) -> &[u8] {
    let padded = &record[..MAX_NAME_BYTES];
    padded.split(|byte| *byte == 0).next().unwrap_or_default()
}
