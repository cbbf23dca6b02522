//! Notes on kept lines that do something in EDK II's build tools and nothing here.

use std::collections::HashSet;

use super::known::Known;
use super::note::Note;
use crate::description::{first_byte, plain, Plain};
use crate::examined::Examined;
use crate::library::mark;
use crate::terminal::{escaped, without_end};

/// The notes on the kept lines. A macro's `EDK_GLOBAL` lines have one together, and none if the macro is set, or meant to be unset: then
/// its value is settled.
pub fn notes(file: &Examined, known: &Known) -> Vec<Note> {
    let mut notes = Vec::new();
    let mut seen = HashSet::new();
    for (line, (text, mark)) in (1..).zip(file.marked()) {
        let text = without_end(text);
        let Some(found) = plain(text).filter(|_| mark == mark::KEPT) else {
            continue;
        };
        let name = match found {
            Plain::Global(name) => name,
            _ => None,
        };
        if name.is_some_and(|name| !seen.insert(name) || known.is_settled(name, line)) {
            continue;
        }
        let (kind, said) = words(&found);
        notes.push(Note {
            kind,
            file: Some(file.name.to_vec()),
            line,
            column: first_byte(text) + 1,
            name: name.map(<[u8]>::to_vec),
            text: said,
        });
    }
    notes
}

/// The kind and the text of a note.
fn words(found: &Plain) -> (&'static str, String) {
    match found {
        Plain::Include => (
            "include",
            "`!include` is not followed: the line is kept, the file that it names is not read"
                .into(),
        ),
        Plain::Error => ("error", "`!error` stops nothing: the line is kept".into()),
        Plain::Global(name) => {
            let advice = name.map(|name| format!("; set {} with -D or -s", escaped(name)));
            let advice = advice.unwrap_or_default();
            let said = format!("`EDK_GLOBAL` sets nothing yet: the line is kept{advice}");
            ("define", said)
        }
    }
}
