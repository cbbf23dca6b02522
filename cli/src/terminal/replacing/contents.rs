//! What a file gets: bytes, and what stays of the file that it replaces.

use std::fs::{File, Metadata};
use std::io::{self, ErrorKind, Write};
use std::os::unix::fs::{fchown, MetadataExt};
use std::path::Path;

/// The permissions of a new file, less the umask, and those of one that gets the old file's when it is filled.
const NEW: u32 = 0o666;
const PRIVATE: u32 = 0o600;

pub struct Contents<'a> {
    bytes: &'a [u8],
    /// The file that is replaced, if there is one.
    old: Option<Metadata>,
}

impl Contents<'_> {
    /// The bytes for a path. A file that may not be written may not be replaced either.
    pub fn for_path<'a>(path: &Path, bytes: &'a [u8]) -> io::Result<Contents<'a>> {
        let old = match File::options().write(true).open(path) {
            Ok(file) => Some(file.metadata()?),
            Err(error) if error.kind() == ErrorKind::NotFound => None,
            Err(error) => return Err(error),
        };
        Ok(Contents { bytes, old })
    }

    /// The permissions with which a file is made.
    pub fn mode(&self) -> u32 {
        match self.old {
            Some(_) => PRIVATE,
            None => NEW,
        }
    }

    /// Puts the bytes on the disk, with the owner, if that can be, and the permissions of the old file.
    pub fn fill(&self, mut file: &File) -> io::Result<()> {
        file.write_all(self.bytes)?;
        if let Some(old) = &self.old {
            // Few may give a file away, and that is no reason to fail.
            let _ = fchown(file, None, Some(old.gid()));
            let _ = fchown(file, Some(old.uid()), None);
            file.set_permissions(old.permissions())?;
        }
        file.sync_all()
    }
}
