//! The lines of a file and their directive words (document 01, Lines and
//! directives).

use crate::bytes::{count_while, skip_blanks};
use crate::refusal;

/// The lines without their ends. A CR belongs to the end only where an LF
/// follows it, so the last line keeps its CR if it has no LF.
pub fn lines(file: &[u8]) -> impl Iterator<Item = &[u8]> {
    file.split_inclusive(|&byte| byte == b'\n')
        .map(|piece| match piece {
            [line @ .., b'\r', b'\n'] => line,
            [line @ .., b'\n'] => line,
            line => line,
        })
}

#[derive(Clone, Copy, Debug, PartialEq, Eq)]
pub enum Word {
    If,
    Ifdef,
    Ifndef,
    Elseif,
    Else,
    Endif,
}

/// A directive's argument is everything after its word.
#[derive(Clone, Copy, Debug, PartialEq, Eq)]
pub enum Line<'a> {
    Plain,
    Directive { word: Word, argument: &'a [u8] },
}

/// Whether the line is plain or a directive, or refusal 18.
pub fn sort(line: &[u8]) -> Result<Line<'_>, u8> {
    let [b'!', text @ ..] = skip_blanks(line) else {
        return Ok(Line::Plain);
    };
    let (word, argument) = text.split_at(count_while(text, |byte| byte.is_ascii_alphabetic()));
    let word = match word {
        b"if" => Word::If,
        b"ifdef" => Word::Ifdef,
        b"ifndef" => Word::Ifndef,
        b"elseif" | b"elif" => Word::Elseif,
        b"else" => Word::Else,
        b"endif" => Word::Endif,
        b"include" | b"error" => return Ok(Line::Plain),
        _ => return Err(refusal::WORD),
    };
    Ok(Line::Directive { word, argument })
}
