//! Directives, as messages speak of them.

use super::brief::brief;
use crate::description::{directive, mentions};
use crate::library::{select, Edition, Terms};

/// What an unknown word is taken for, and the words that there are.
pub fn unknown_word(line: &[u8]) -> String {
    let words = "`!if`, `!ifdef`, `!ifndef`, `!elseif`, `!elif`, `!else` and `!endif`";
    match directive(line).map_or(b"".as_slice(), |found| found.word) {
        [] => format!("no letter follows the `!`; the directives are {words}"),
        word => format!("`!{}` is none of {words}; case matters", brief(word)),
    }
}

/// What the word of a line takes that has something else after it (22).
pub fn malformed(line: &[u8], edition: Edition) -> Option<String> {
    let word = directive(line)?.word;
    let taken = match (word, edition) {
        (b"if" | b"elseif" | b"elif", _) => "a blank and an expression",
        (b"ifdef" | b"ifndef", Edition::New) if is_taken_by_old(line) => return unwrapped(line),
        (b"ifdef" | b"ifndef", Edition::New) => "a blank and one macro, as NAME",
        (b"ifdef" | b"ifndef", Edition::Old) => "a blank and one macro, as NAME or $(NAME)",
        (b"else" | b"endif", _) => "nothing but a comment, which starts with `#`",
        _ => return None,
    };
    Some(format!("`!{}` takes {taken}", brief(word)))
}

/// Whether the old edition takes a line that starts a group. The blank keeps a CR at its end a part of it.
fn is_taken_by_old(line: &[u8]) -> bool {
    let terms = Terms {
        table: b"",
        edition: Edition::Old,
    };
    select(&[line, b" \n!endif\n"].concat(), terms).is_ok()
}

/// How the new edition has an `!ifdef` that names its macro as $(NAME).
fn unwrapped(line: &[u8]) -> Option<String> {
    let named = mentions(line).into_iter().next()?;
    let (word, name) = (brief(named.word), brief(named.name));
    Some(format!(
        "the new edition takes no `$(` and `)` after `!{word}`: write `!{word} {name}`, or use --edition old"
    ))
}
