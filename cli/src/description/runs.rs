//! Runs of letters, digits and `_`.

/// The run at the front of a text, and what follows it.
pub fn split_run(text: &[u8]) -> (&[u8], &[u8]) {
    let is_in_run = |byte: &u8| byte.is_ascii_alphanumeric() || *byte == b'_';
    let len = text.iter().take_while(|byte| is_in_run(byte)).count();
    text.split_at(len)
}
