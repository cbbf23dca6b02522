//! Notes on what the new edition would refuse, for --warn-old. In what that edition accepts there is nothing of the sort.

use super::note::Note;
use crate::description::{bare_words, bare_words_of_line, macro_name, Mention};
use crate::examined::Examined;
use crate::terminal::escaped;

/// One note for each place in these read lines and among what they name, since each has to be changed.
pub fn notes(file: &Examined, read: &[(usize, &[u8])], mentions: &[(usize, Mention)]) -> Vec<Note> {
    let words = read.iter().flat_map(|&(line, text)| {
        let words = bare_words_of_line(text).into_iter();
        words.map(move |found| of_word(file.name, line, found))
    });
    let macros = mentions
        .iter()
        .filter_map(|(line, mention)| of_macro(file.name, *line, mention));
    words.chain(macros).collect()
}

/// The notes on an expression by itself, which has this name.
pub fn of_expression(name: &[u8], expression: &[u8]) -> Vec<Note> {
    let words = bare_words(expression).into_iter();
    words.map(|found| of_word(name, 1, found)).collect()
}

/// The note on a bare word at an offset in its line.
fn of_word(file: &[u8], line: usize, (offset, word): (usize, &[u8])) -> Note {
    let shown = escaped(word);
    Note {
        kind: "old-word",
        file: Some(file.to_vec()),
        line,
        column: offset + 1,
        name: Some(word.to_vec()),
        text: format!("the new edition refuses the bare word {shown}; write \"{shown}\""),
    }
}

/// The note on $(NAME) after an `!ifdef` or an `!ifndef`.
fn of_macro(file: &[u8], line: usize, mention: &Mention) -> Option<Note> {
    let word = match mention.word {
        b"ifdef" => "ifdef",
        b"ifndef" => "ifndef",
        _ => return None,
    };
    let name = macro_name(mention.text)?;
    let (shown, instead) = (escaped(mention.text), escaped(name));
    Some(Note {
        kind: "old-ifdef",
        file: Some(file.to_vec()),
        line,
        column: mention.offset + 1,
        name: Some(name.to_vec()),
        text: format!("the new edition refuses {shown} after `!{word}`; write {instead}"),
    })
}
