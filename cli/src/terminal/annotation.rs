//! A description file with the number and the mark of every line.

use std::env;
use std::io::{self, IsTerminal};

use super::escaping::escaped;
use crate::library::mark;

/// The marks of lines that make no difference.
const DIMMED: [u8; 2] = [mark::DROPPED, mark::UNREAD];

const DIM: &str = "\x1b[2m";
const RESET: &str = "\x1b[0m";

/// The number, the mark and the text of each line. The number has four places, since a file has at most 4,096 lines.
pub fn annotated<'a>(lines: impl Iterator<Item = (&'a [u8], u8)>, has_colours: bool) -> String {
    let mut view = String::new();
    for (number, (text, mark)) in (1..).zip(lines) {
        let (start, end) = match has_colours && DIMMED.contains(&mark) {
            true => (DIM, RESET),
            false => ("", ""),
        };
        // Escaped, so that no line can write over its own number and mark.
        view += &format!("{start}{number:>4} {mark} | {}{end}\n", escaped(text));
    }
    view
}

/// Whether lines may be dimmed on standard output: if it is a terminal, unless NO_COLOR is set.
pub fn has_colours() -> bool {
    let is_plain = env::var_os("NO_COLOR").is_some_and(|value| !value.is_empty());
    io::stdout().is_terminal() && !is_plain
}
