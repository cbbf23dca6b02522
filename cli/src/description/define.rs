//! `DEFINE` lines, which set a macro where they are kept.

use super::directive::first_byte;
use super::mentions::is_macro_name;
use super::runs::split_run;
use crate::library::limit::MAX_NAME_BYTES;

/// A line of the shape `DEFINE NAME = expression`.
pub struct Define<'a> {
    pub name: &'a [u8],
    /// The offset of the name in the line.
    pub name_at: usize,
    /// The offset of what follows the `=`.
    pub text: usize,
}

/// Why a line with this first word has another shape.
pub enum Slip<'a> {
    NoBlank,
    /// What is there instead of a macro's name, up to a blank or a `=`.
    NoName(&'a [u8]),
    LongName(&'a [u8]),
    /// The name that has no `=` after it.
    NoEquals(&'a [u8]),
}

/// What a line sets whose first word is `DEFINE`, or its slip; nothing if the first word is another one.
pub fn define(line: &[u8]) -> Option<Result<Define<'_>, Slip<'_>>> {
    let start = first_byte(line);
    let (word, _) = split_run(&line[start..]);
    (word == b"DEFINE").then(|| shape(line, start + word.len()))
}

/// The shape of what follows the word.
fn shape(line: &[u8], start: usize) -> Result<Define<'_>, Slip<'_>> {
    let rest = &line[start..];
    if !matches!(rest, [b' ' | b'\t', ..]) {
        return Err(Slip::NoBlank);
    }
    let name_at = start + first_byte(rest);
    let is_end = |byte: &u8| matches!(byte, b' ' | b'\t' | b'=');
    let name = line[name_at..].split(is_end).next().unwrap_or_default();
    let after = &line[name_at + name.len()..];
    let equals = first_byte(after);
    match after.get(equals) {
        _ if !is_macro_name(name) => Err(Slip::NoName(name)),
        _ if name.len() > MAX_NAME_BYTES => Err(Slip::LongName(name)),
        Some(b'=') => Ok(Define {
            name,
            name_at,
            text: name_at + name.len() + equals + 1,
        }),
        _ => Err(Slip::NoEquals(name)),
    }
}
