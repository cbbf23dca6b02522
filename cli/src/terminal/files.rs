//! The files that a run reads and writes; `-` is standard input or output.

use std::ffi::OsStr;
use std::fs::File;
use std::io::{self, Read};
use std::os::unix::ffi::OsStrExt;
use std::path::Path;

use super::error::Error;
use super::escaping::escaped;
use super::printing::print;
use super::replacing::replace;
use super::streams;
use crate::library::limit;

/// One byte more than a description file or a table may have, so that the library refuses it and an endless input ends.
const MAX_READ: usize = limit::MAX_FILE_BYTES + 1;

/// The bytes of a description file or a table.
pub fn read(file: &[u8]) -> Result<Vec<u8>, Error> {
    read_at_most(file, MAX_READ)
}

/// The first `max` bytes of a file, or all if it has fewer.
pub fn read_at_most(file: &[u8], max: usize) -> Result<Vec<u8>, Error> {
    let opened = match file {
        b"-" => streams::input(),
        _ => File::open(OsStr::from_bytes(file)),
    };
    let mut bytes = Vec::new();
    opened
        .and_then(|open| open.take(max as u64).read_to_end(&mut bytes))
        .map_err(|error| failed(file, error))?;
    Ok(bytes)
}

/// Writes a file: all of it, or nothing.
pub fn write(file: &[u8], bytes: &[u8]) -> Result<(), Error> {
    match file {
        b"-" => print(bytes),
        _ => {
            replace(Path::new(OsStr::from_bytes(file)), bytes).map_err(|error| failed(file, error))
        }
    }
}

/// A file or a stream that cannot be read or written.
pub fn failed(file: &[u8], error: io::Error) -> Error {
    Error::Failed(format!("{}: {error}", escaped(file)))
}
