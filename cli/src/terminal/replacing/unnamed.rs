//! A file without a name: if the run ends before it has one, nothing is left of it.

use std::ffi::{c_char, CString};
use std::fs::File;
use std::io;
use std::os::fd::AsRawFd;
use std::os::unix::ffi::OsStrExt;
use std::os::unix::fs::OpenOptionsExt;
use std::path::Path;

/// As in fcntl.h. Where the number of O_TMPFILE is another one, such a file cannot be opened.
const O_TMPFILE: i32 = 0o20_200_000;
const AT_FDCWD: i32 = -100;
const AT_SYMLINK_FOLLOW: i32 = 0x400;

extern "C" {
    fn linkat(
        old_folder: i32,
        old: *const c_char,
        new_folder: i32,
        new: *const c_char,
        flags: i32,
    ) -> i32;
}

/// A file in a folder, with these permissions less the umask. Not every file system has such files.
pub fn create(folder: &Path, mode: u32) -> io::Result<File> {
    let mut options = File::options();
    let options = options.write(true).mode(mode).custom_flags(O_TMPFILE);
    options.open(folder)
}

/// Gives the file a name that nothing has. Without /proc this cannot be done.
pub fn link(file: &File, path: &Path) -> io::Result<()> {
    let old = CString::new(format!("/proc/self/fd/{}", file.as_raw_fd()))?;
    let new = CString::new(path.as_os_str().as_bytes())?;
    // SAFETY: both are strings with a zero at their end, which live until linkat returns. It reads them and writes nothing.
    let status = unsafe {
        linkat(
            AT_FDCWD,
            old.as_ptr(),
            AT_FDCWD,
            new.as_ptr(),
            AT_SYMLINK_FOLLOW,
        )
    };
    match status {
        0 => Ok(()),
        _ => Err(io::Error::last_os_error()),
    }
}
