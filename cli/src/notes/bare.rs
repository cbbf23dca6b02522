//! Notes on bare words that are the names of set macros.

use std::collections::HashSet;

use super::known::Known;
use super::note::Note;
use crate::description::bare_words_of_line;
use crate::examined::Examined;
use crate::terminal::escaped;

/// One note for each such name in these read lines, at its first place where it is set.
pub fn notes(file: &Examined, read: &[(usize, &[u8])], known: &Known) -> Vec<Note> {
    let mut seen = HashSet::new();
    let mut notes = Vec::new();
    for &(line, text) in read {
        for (offset, word) in bare_words_of_line(text) {
            if !seen.contains(word) && known.is_set(word, line) {
                seen.insert(word);
                let name = escaped(word);
                notes.push(Note {
                    kind: "bare-macro",
                    file: Some(file.name.to_vec()),
                    line,
                    column: offset + 1,
                    name: Some(word.to_vec()),
                    text: format!(
                        "{name} is a bare word, so it is the string \"{name}\"; $({name}) is set"
                    ),
                });
            }
        }
    }
    notes
}
