//! Paths that name an open file of the run, as /dev/stdout does: it is written where it is open, and nothing is replaced.

use std::fs::{self, File};
use std::io::{self, Write};
use std::os::fd::{BorrowedFd, RawFd};
use std::path::Path;

use super::folders::folder_of;
use super::links::MAX_LINKS;
use crate::terminal::streams;

/// The number of the open file that a path names, if it does, directly or through links.
pub fn descriptor(path: &Path) -> Option<RawFd> {
    let open = fs::canonicalize("/proc/self/fd").ok()?;
    let mut path = path.to_path_buf();
    for _ in 0..=MAX_LINKS {
        // What is there is a link, whether a file has this name or not.
        let next = fs::read_link(&path).ok()?;
        if fs::canonicalize(folder_of(&path)).is_ok_and(|folder| folder == open) {
            return path.file_name()?.to_str()?.parse().ok();
        }
        path = folder_of(&path).join(next);
    }
    None
}

/// Writes to an open file, after what was written there before.
pub fn write_open(descriptor: RawFd, bytes: &[u8]) -> io::Result<()> {
    let mut file = match descriptor {
        1 => streams::output()?,
        _ => {
            // SAFETY: the system has just listed the descriptor as open, and this run has one thread, which closes nothing meanwhile.
            let open = unsafe { BorrowedFd::borrow_raw(descriptor) };
            File::from(open.try_clone_to_owned()?)
        }
    };
    file.write_all(bytes)
}
