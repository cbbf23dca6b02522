//! Notes on bytes that a text file should not have.

use super::note::Note;
use crate::description::{oddities, Oddity, Oddness};
use crate::examined::Examined;

pub fn notes(file: &Examined) -> Vec<Note> {
    let note = |oddity: Oddity| {
        let (kind, text) = words(&oddity);
        Note {
            kind,
            file: Some(file.name.to_vec()),
            line: oddity.line,
            column: oddity.column,
            name: None,
            text,
        }
    };
    oddities(&file.bytes).into_iter().map(note).collect()
}

/// The kind and the text of a note.
fn words(oddity: &Oddity) -> (&'static str, String) {
    let count = oddity.count;
    match oddity.oddness {
        Oddness::ByteOrderMark => ("byte-order-mark", byte_order_mark(oddity)),
        Oddness::Utf16 => (
            "utf-16",
            "this looks like UTF-16; convert it to UTF-8".into(),
        ),
        Oddness::Nul => (
            "nul",
            format!("NUL bytes, {count} in all; is this a text file?"),
        ),
        Oddness::BareCr => (
            "bare-cr",
            format!("a CR without an LF after it ends no line; {count} in all"),
        ),
    }
}

fn byte_order_mark(oddity: &Oddity) -> String {
    let text = match (oddity.line, oddity.column) {
        (1, 1) => "the file begins with a byte order mark, which belongs to its first line; save it without one",
        _ => "a byte order mark within the file, which belongs to its line; save the file without it",
    };
    match oddity.count {
        1 => text.into(),
        count => format!("{text}; {count} in all"),
    }
}
