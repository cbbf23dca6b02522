//! A file of settings, one per line.

use std::collections::HashMap;

use super::blanks::{split_comment, trim};
use super::record::stored_name;
use super::setting::{parse, Fault, Setting};
use crate::description::BYTE_ORDER_MARK;
use crate::terminal::{escaped, read_at_most, Error};

/// 1 MiB.
const MAX_BYTES: usize = 1 << 20;

/// The settings of a file, each of another name.
pub fn read(file: &[u8]) -> Result<Vec<Setting>, Error> {
    let bytes = contents(file)?;
    let file = escaped(file);
    let mut settings = Vec::new();
    let mut lines = HashMap::new();
    for (line, text) in (1..).zip(bytes.split(|byte| *byte == b'\n')) {
        let (text, _) = split_comment(text.strip_suffix(b"\r").unwrap_or(text));
        if trim(text).is_empty() {
            continue;
        }
        let place = format!("{file}:{line}");
        let record = parse(text).map_err(|fault| failed(&place, fault))?;
        if let Some(earlier) = lines.insert(stored_name(&record).to_vec(), line) {
            let name = Some(escaped(stored_name(&record)));
            let reason = format!("it is set in line {earlier} already");
            return Err(failed(&place, Fault { name, reason }));
        }
        settings.push(Setting { record, place });
    }
    Ok(settings)
}

/// The bytes of a file that can be one of settings.
fn contents(file: &[u8]) -> Result<Vec<u8>, Error> {
    let bytes = read_at_most(file, MAX_BYTES + 1)?;
    let file = escaped(file);
    if bytes.len() > MAX_BYTES {
        return Err(Error::Failed(format!(
            "{file}: more than 1 MiB of settings"
        )));
    }
    if bytes.starts_with(BYTE_ORDER_MARK) {
        let reason = "a byte order mark, which belongs to no setting";
        return Err(Error::Failed(format!("{file}:1: {reason}")));
    }
    Ok(bytes)
}

fn failed(place: &str, Fault { name, reason }: Fault) -> Error {
    let name = name.map_or(String::new(), |name| name + ": ");
    Error::Failed(format!("{place}: {name}{reason}"))
}
