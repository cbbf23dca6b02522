//! Links to files that are written.

use std::fs;
use std::io;
use std::path::{Path, PathBuf};

use super::folders::folder_of;

/// The most links of a chain, as many as Linux follows.
pub const MAX_LINKS: usize = 40;

/// ELOOP, as in errno.h.
const TOO_MANY_LINKS: i32 = 40;

/// The path at the end of a chain of links; nothing need be there yet. A path that is no link is its own end.
pub fn followed(path: &Path) -> io::Result<PathBuf> {
    let mut path = path.to_path_buf();
    for _ in 0..=MAX_LINKS {
        match fs::read_link(&path) {
            Ok(next) => path = folder_of(&path).join(next),
            Err(_) => return Ok(path),
        }
    }
    Err(io::Error::from_raw_os_error(TOO_MANY_LINKS))
}
