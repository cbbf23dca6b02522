//! Classes of bytes, and the names made of them (document 01, Tokens).
//!
//! Letters are the ASCII ones only; a byte from 0x80 up is never a letter.

pub fn is_blank(byte: u8) -> bool {
    byte == b' ' || byte == b'\t'
}

/// A byte that may be anywhere in a run.
pub fn is_run(byte: u8) -> bool {
    byte.is_ascii_alphanumeric() || byte == b'_'
}

/// A byte that a run may begin with if it is no number.
pub fn is_run_start(byte: u8) -> bool {
    byte.is_ascii_alphabetic() || byte == b'_'
}

/// How many bytes at the front satisfy the test.
pub fn count_while(bytes: &[u8], test: impl Fn(u8) -> bool) -> usize {
    bytes
        .iter()
        .position(|&byte| !test(byte))
        .unwrap_or(bytes.len())
}

/// The bytes after any blanks at the front.
pub fn skip_blanks(bytes: &[u8]) -> &[u8] {
    &bytes[count_while(bytes, is_blank)..]
}

/// Length of the macro name at the front, 0 if there is none.
pub fn macro_length(bytes: &[u8]) -> usize {
    match bytes.first() {
        Some(b'A'..=b'Z') => count_while(bytes, |byte| {
            byte.is_ascii_uppercase() || byte.is_ascii_digit() || byte == b'_'
        }),
        _ => 0,
    }
}

/// Length of the PCD name at the front, 0 if there is none.
pub fn pcd_length(bytes: &[u8]) -> usize {
    if !bytes.first().is_some_and(|&byte| is_run_start(byte)) {
        return 0;
    }
    let dot = count_while(bytes, is_run);
    let second = &bytes[dot..];
    if second.len() < 2 || second[0] != b'.' || !is_run_start(second[1]) {
        return 0;
    }
    dot + 1 + count_while(&second[1..], is_run)
}

/// Whether these bytes are a whole macro name or a whole PCD name.
pub fn is_name(bytes: &[u8]) -> bool {
    !bytes.is_empty() && (macro_length(bytes) == bytes.len() || pcd_length(bytes) == bytes.len())
}
