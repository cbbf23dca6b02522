//! Bytes from outside, as people see them.

mod format_characters;

use format_characters::is_format;

/// A character, or a byte that is none: the offset of its first byte, and how it is shown.
pub struct Shown {
    pub offset: usize,
    pub text: String,
}

/// Text as it is, except that unseen characters other than the tab, and bytes that are not UTF-8, become \xNN for each byte: none of them
/// reaches a terminal.
pub fn escaped(bytes: &[u8]) -> String {
    characters(bytes).map(|shown| shown.text).collect()
}

/// Whether a character has no picture, and may change how others are shown: a control or a format character, or a separator of lines or
/// paragraphs.
pub fn is_unseen(character: char) -> bool {
    character.is_control() || is_format(character) || matches!(character, '\u{2028}' | '\u{2029}')
}

/// The characters of a text, each as `escaped` shows it.
pub fn characters(bytes: &[u8]) -> impl Iterator<Item = Shown> + '_ {
    let mut offset = 0;
    bytes.utf8_chunks().flat_map(move |chunk| {
        let start = offset;
        let invalid = start + chunk.valid().len();
        offset = invalid + chunk.invalid().len();
        let valid = chunk.valid().char_indices();
        let valid = valid.map(move |(at, character)| Shown {
            offset: start + at,
            text: shown(character),
        });
        let others = (invalid..).zip(chunk.invalid());
        valid.chain(others.map(|(offset, byte)| Shown {
            offset,
            text: escape(byte),
        }))
    })
}

fn shown(character: char) -> String {
    let text = character.to_string();
    match is_unseen(character) && character != '\t' {
        true => text.as_bytes().iter().map(escape).collect(),
        false => text,
    }
}

fn escape(byte: &u8) -> String {
    format!("\\x{byte:02X}")
}
