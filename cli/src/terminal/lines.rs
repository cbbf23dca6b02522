//! The lines of a file, by the rule by which the library cuts them.

/// The lines of a file, each with its own end.
pub fn lines(file: &[u8]) -> impl Iterator<Item = &[u8]> {
    file.split_inclusive(|&byte| byte == b'\n')
}

/// A line's text. A CR is part of the line's end only right before an LF.
pub fn without_end(line: &[u8]) -> &[u8] {
    match line {
        [text @ .., b'\r', b'\n'] | [text @ .., b'\n'] => text,
        _ => line,
    }
}
