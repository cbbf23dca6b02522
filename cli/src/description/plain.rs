//! Plain lines that do something in EDK II's build tools and nothing here.

use super::directive::{directive, first_byte};
use super::mentions::is_macro_name;
use super::runs::split_run;

pub enum Plain<'a> {
    Include,
    Error,
    /// `EDK_GLOBAL`, with the macro's name, if there is one.
    Global(Option<&'a [u8]>),
}

/// What a plain line would do.
pub fn plain(line: &[u8]) -> Option<Plain<'_>> {
    if let Some(found) = directive(line) {
        return match found.word {
            b"include" => Some(Plain::Include),
            b"error" => Some(Plain::Error),
            _ => None,
        };
    }
    let (first, rest) = split_run(&line[first_byte(line)..]);
    if first != b"EDK_GLOBAL" {
        return None;
    }
    let (name, after) = split_run(&rest[first_byte(rest)..]);
    let is_name = matches!(after, [] | [b' ' | b'\t' | b'=', ..]) && is_macro_name(name);
    Some(Plain::Global(is_name.then_some(name)))
}
