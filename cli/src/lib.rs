//! The command `korzhinay`: it reads, calls the proved library and prints. Exit status: 0 an answer; 1 a refusal, or a note under
//! --strict; 2 wrong usage, a file that cannot be read or written, or a setting that no record can hold.

#![deny(clippy::undocumented_unsafe_blocks)]

mod commands;
mod description;
pub mod documents;
mod examined;
mod library;
mod notes;
mod refusals;
mod scope;
mod settings;
mod terminal;

use std::env;
use std::os::unix::ffi::OsStrExt;
use std::process::ExitCode;

/// Runs the command on the words of the command line.
pub fn main() -> ExitCode {
    let arguments: Vec<_> = env::args_os().skip(1).collect();
    let words: Vec<&[u8]> = arguments.iter().map(|word| word.as_bytes()).collect();
    let subcommand = commands::find(&words);
    match commands::run(subcommand, &words) {
        Ok(()) => ExitCode::SUCCESS,
        Err(error) => error.report(&commands::command(subcommand), &commands::usage(subcommand)),
    }
}
