//! What goes to standard output.

use std::io::{self, ErrorKind, IsTerminal, Write};

use super::error::Error;
use super::escaping::escaped;
use super::files::failed;
use super::lines::lines;
use super::streams;

/// Writes to standard output.
pub fn print(text: &[u8]) -> Result<(), Error> {
    let written = streams::output().and_then(|mut output| output.write_all(text));
    written.map_err(|error| match error.kind() {
        ErrorKind::BrokenPipe => Error::BrokenPipe,
        _ => failed(b"standard output", error),
    })
}

/// Writes to standard output as it is, so that scripts get every byte; on a terminal each line is escaped.
pub fn print_shown(text: &[u8]) -> Result<(), Error> {
    match io::stdout().is_terminal() {
        true => print(shown(text).as_bytes()),
        false => print(text),
    }
}

fn shown(text: &[u8]) -> String {
    let shown = |line: &[u8]| match line.strip_suffix(b"\n") {
        Some(text) => escaped(text) + "\n",
        None => escaped(line),
    };
    lines(text).map(shown).collect()
}
