//! Notes on macros in quotes.

use std::collections::HashSet;

use super::note::Note;
use crate::description::quoted_macros;
use crate::examined::Examined;
use crate::terminal::escaped;

/// One note for each name that is in a string of these read lines, at its first place.
pub fn notes(file: &Examined, read: &[(usize, &[u8])]) -> Vec<Note> {
    let mut seen = HashSet::new();
    let mut notes = Vec::new();
    for &(line, text) in read {
        for (offset, name) in quoted_macros(text) {
            if seen.insert(name) {
                notes.push(Note {
                    kind: "quoted-macro",
                    file: Some(file.name.to_vec()),
                    line,
                    column: offset + 1,
                    name: Some(name.to_vec()),
                    text: format!(
                        "$({}) is in quotes, so it is text and is not replaced",
                        escaped(name)
                    ),
                });
            }
        }
    }
    notes
}
