//! What does not belong to a setting: a comment, and blanks at both ends.

/// The text before a comment, and whether there is one: it starts at the first `#` outside quotes.
pub fn split_comment(text: &[u8]) -> (&[u8], bool) {
    let mut quote = None;
    for (at, &byte) in text.iter().enumerate() {
        match (byte, quote) {
            (_, Some(open)) if byte == open => quote = None,
            (_, Some(_)) => {}
            (b'"' | b'\'', None) => quote = Some(byte),
            (b'#', None) => return (&text[..at], true),
            _ => {}
        }
    }
    (text, false)
}

/// A text without the blanks at both ends.
pub fn trim(text: &[u8]) -> &[u8] {
    let is_blank = |byte: &u8| matches!(byte, b' ' | b'\t');
    let Some(start) = text.iter().position(|byte| !is_blank(byte)) else {
        return b"";
    };
    let end = text
        .iter()
        .rposition(|byte| !is_blank(byte))
        .map_or(start, |last| last + 1);
    &text[start..end]
}
