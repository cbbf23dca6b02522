//! Files that are replaced as a whole or stay as they are: a table that was cut off could pass for a whole one.

mod contents;
mod descriptors;
mod folders;
mod links;
mod signals;
mod unnamed;

use std::fs::{self, File};
use std::io::{self, ErrorKind};
use std::os::unix::fs::OpenOptionsExt;
use std::path::{Path, PathBuf};
use std::process;

use contents::Contents;
use descriptors::{descriptor, write_open};
use folders::{folder_of, sync};
use links::followed;
use signals::HeldSignals;

/// Replaces a regular file, or makes one: of a link the file that it leads to. Anything else, and an open file of the run, is written in
/// place.
pub fn replace(path: &Path, bytes: &[u8]) -> io::Result<()> {
    if let Some(open) = descriptor(path) {
        return write_open(open, bytes);
    }
    match fs::metadata(path) {
        Ok(found) if !found.is_file() => fs::write(path, bytes),
        _ => replace_whole(&followed(path)?, bytes),
    }
}

/// Fills a file without a name, and gives it the path.
fn replace_whole(path: &Path, bytes: &[u8]) -> io::Result<()> {
    let folder = folder_of(path);
    let contents = Contents::for_path(path, bytes)?;
    // Not every file system has such files; if something else is the matter, it is met again below.
    let unnamed = unnamed::create(folder, contents.mode()).ok();
    if let Some(file) = &unnamed {
        contents.fill(file)?;
    }
    take_path(path, unnamed.as_ref(), &contents)?;
    sync(folder)
}

/// Gives the file a name of its own, or fills one that has a name if there is no such file or it gets none; then gives that one the path.
/// Meanwhile no signal ends the run.
fn take_path(path: &Path, unnamed: Option<&File>, contents: &Contents) -> io::Result<()> {
    let _held = HeldSignals::new();
    let link = |file| with_free_name(path, |name| unnamed::link(file, name)).ok();
    let (fresh, filled) = match unnamed.and_then(link) {
        Some((fresh, ())) => (fresh, Ok(())),
        None => {
            let mut options = File::options();
            let options = options.write(true).create_new(true).mode(contents.mode());
            let (fresh, file) = with_free_name(path, |name| options.open(name))?;
            (fresh, contents.fill(&file))
        }
    };
    let outcome = filled.and_then(|()| fs::rename(&fresh, path));
    if outcome.is_err() {
        // The first error is the one to report.
        let _ = fs::remove_file(&fresh);
    }
    outcome
}

/// Makes something under a name that is free beside a path. The name is short, whatever that of the path is.
fn with_free_name<T>(
    path: &Path,
    make: impl Fn(&Path) -> io::Result<T>,
) -> io::Result<(PathBuf, T)> {
    let mut number = 0;
    loop {
        let name = format!(".korzhinay-{}-{number}", process::id());
        let name = folder_of(path).join(name);
        match make(&name) {
            Err(error) if error.kind() == ErrorKind::AlreadyExists => number += 1,
            made => return made.map(|made| (name, made)),
        }
    }
}
