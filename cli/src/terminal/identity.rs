//! Whether two names are of one file.

use std::ffi::OsStr;
use std::fs::{self, Metadata};
use std::io;
use std::os::unix::ffi::OsStrExt;
use std::os::unix::fs::MetadataExt;

use super::streams;

/// Whether an input, `-` being standard input, is the regular file to which an output goes, by whatever path or link.
pub fn is_same_file(input: &[u8], output: &[u8]) -> bool {
    let read = match input {
        b"-" => streams::input().and_then(|open| open.metadata()),
        _ => of_path(input),
    };
    let key = |found: Metadata| (found.dev(), found.ino());
    match (read, of_path(output)) {
        (Ok(read), Ok(written)) => written.is_file() && key(read) == key(written),
        _ => false,
    }
}

fn of_path(path: &[u8]) -> io::Result<Metadata> {
    fs::metadata(OsStr::from_bytes(path))
}
