//! Settings on the command line.

use super::blanks::{split_comment, trim};
use super::setting::{is_name, no_name, parse, Setting};
use crate::terminal::{escaped, Error};

/// The setting that -D gives.
pub fn read(text: &[u8]) -> Result<Setting, Error> {
    let place = format!("-D {}", escaped(text));
    let failed = |reason| Error::Failed(format!("{place}: {reason}"));
    match split_comment(text) {
        (_, true) => Err(failed(
            "# starts a comment, which only a file can have; a string goes into quotes".into(),
        )),
        (text, false) => match parse(text) {
            Ok(record) => Ok(Setting { record, place }),
            Err(fault) => Err(failed(fault.reason)),
        },
    }
}

/// The name that -U gives.
pub fn name(text: &[u8]) -> Result<&[u8], Error> {
    let failed = |reason| Error::Failed(format!("-U {}: {reason}", escaped(text)));
    if text.contains(&b'=') {
        return Err(failed("-U takes a name without a value".into()));
    }
    let name = trim(text);
    // A name that is too long for a table may be meant to be unset all the same.
    is_name(name)
        .then_some(name)
        .ok_or_else(|| failed(no_name(name)))
}
