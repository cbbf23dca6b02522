//! Lines that begin with `!`.

/// A line whose first byte, blanks left out, is `!`.
pub struct Directive<'a> {
    /// The letters after the `!`.
    pub word: &'a [u8],
    /// The offset of what follows them.
    pub text: usize,
}

/// The offset of a line's first byte that is no blank; 0 if there is none.
pub fn first_byte(line: &[u8]) -> usize {
    let is_blank = |byte: &u8| matches!(byte, b' ' | b'\t');
    let found = line.iter().position(|byte| !is_blank(byte));
    found.unwrap_or(0)
}

/// The directive of a line; one whose word is unknown is one here.
pub fn directive(line: &[u8]) -> Option<Directive<'_>> {
    let start = first_byte(line) + 1;
    let after = line[start - 1..].strip_prefix(b"!")?;
    let is_letter = |byte: &u8| byte.is_ascii_alphabetic();
    let letters = after.iter().take_while(|byte| is_letter(byte)).count();
    Some(Directive {
        word: &after[..letters],
        text: start + letters,
    })
}
