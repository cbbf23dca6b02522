//! The folder that has a file.

use std::ffi::OsStr;
use std::fs::File;
use std::io::{self, ErrorKind};
use std::os::unix::ffi::OsStrExt;
use std::path::Path;

/// The folder of a path. That of `a/` is `a/`, since no file has this name.
pub fn folder_of(path: &Path) -> &Path {
    let path = path.as_os_str().as_bytes();
    match path.iter().rposition(|byte| *byte == b'/') {
        Some(slash) => Path::new(OsStr::from_bytes(&path[..=slash])),
        None => Path::new("."),
    }
}

/// Puts the names in a folder on the disk. One that may not be read, or whose file system cannot do it, is left to the system.
pub fn sync(folder: &Path) -> io::Result<()> {
    let Ok(open) = File::open(folder) else {
        return Ok(());
    };
    match open.sync_all() {
        Err(error) if error.kind() == ErrorKind::InvalidInput => Ok(()),
        outcome => outcome,
    }
}
