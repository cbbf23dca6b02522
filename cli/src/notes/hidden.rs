//! Notes on lines that look like directives or `DEFINE` lines and are plain.

use super::note::Note;
use crate::description::{hidden, Hidden, BYTE_ORDER_MARK};
use crate::examined::Examined;
use crate::library::mark;
use crate::terminal::{escaped, lines};

/// One note for each such line, except that a dropped `DEFINE` would set nothing in any case. A byte order mark at the front of the file
/// has its own.
pub fn notes(file: &Examined) -> Vec<Note> {
    let mut notes = Vec::new();
    let marks = file.outcome.as_ref().map(|found| found.marks.as_slice());
    let marks = marks.unwrap_or_default();
    for (at, text) in lines(&file.bytes).enumerate() {
        let is_marked = at == 0 && text.starts_with(BYTE_ORDER_MARK);
        let Some((found, offset)) = hidden(text).filter(|_| !is_marked) else {
            continue;
        };
        let (kind, said) = match found {
            Hidden::Directive(word) => (
                "hidden-directive",
                format!("`!{}` is no directive here", escaped(word)),
            ),
            Hidden::Define if marks.get(at) == Some(&mark::DROPPED) => continue,
            Hidden::Define => ("hidden-define", "`DEFINE` sets nothing here".into()),
        };
        notes.push(Note {
            kind,
            file: Some(file.name.to_vec()),
            line: at + 1,
            column: offset + 1,
            name: None,
            text: format!("{said}: this byte before it is no blank and no tab"),
        });
    }
    notes
}
