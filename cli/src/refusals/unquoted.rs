//! Texts that a `DEFINE` may set in EDK II's build tools and that are no expressions: paths, GUIDs and other texts without quotes.

use super::brief::brief;
use super::meant::capitals;
use crate::description::split_run;
use crate::library::{refusal, single_token, token};
use crate::settings::{split_comment, trim};

/// Where a line goes that these tools need and no condition does: there it is not read here.
pub const ELSEWHERE: &str = "to a file that `!include` names";

/// What a macro's expression, refused at an offset, is instead of one, and what to do about it; nothing if it may be meant as one.
pub fn unquoted(name: &[u8], expression: &[u8], number: u8, offset: usize) -> Option<String> {
    let text = trim(split_comment(expression).0);
    let is_bad_word = number == refusal::TOKEN_BAD && expression.get(offset) != Some(&b'$');
    let sort = match text {
        [b'{', ..] => "a GUID or an array".into(),
        _ if is_guid(text) => "a GUID".into(),
        _ if is_path(text) => "a path".into(),
        _ if is_file_name(text) || is_bad_word && is_text(text) => {
            format!("the text `{}`", brief(text))
        }
        _ => return None,
    };
    let name = brief(name);
    Some(format!(
        "{sort} is no expression: if a condition uses {name}, put quotes round it; if not, move the line {ELSEWHERE}"
    ))
}

/// What a message goes on with if a division may be meant as a path: macros with a `/` and no blank between them.
pub fn or_path(expression: &[u8]) -> String {
    let text = trim(split_comment(expression).0);
    let is_macro = |piece: &[u8]| piece.starts_with(b"$(") && piece.ends_with(b")");
    match text.contains(&b'/') && pieces(text).all(is_macro) {
        true => format!("; if it is a path, put quotes round it, or move the line {ELSEWHERE}"),
        false => String::new(),
    }
}

/// Groups of 8, 4, 4, 4 and 12 hexadecimal digits.
fn is_guid(text: &[u8]) -> bool {
    let groups: Vec<&[u8]> = text.split(|byte| *byte == b'-').collect();
    let lengths: Vec<usize> = groups.iter().map(|group| group.len()).collect();
    let is_digits = |group: &&[u8]| group.iter().all(u8::is_ascii_hexdigit);
    lengths == [8, 4, 4, 4, 12] && groups.iter().all(is_digits)
}

/// Names of folders and files, and macros, with `/` or `\` and no blank between them. Without any name it may be a division.
fn is_path(text: &[u8]) -> bool {
    let is_in_path = |byte: &u8| byte.is_ascii_alphanumeric() || b"_.-+:$()/\\".contains(byte);
    let is_name = |piece: &[u8]| match piece.contains(&b'.') {
        true => is_file_name(piece),
        false => starts_word(piece),
    };
    text.iter().all(is_in_path) && pieces(text).count() > 1 && pieces(text).any(is_name)
}

fn pieces(text: &[u8]) -> impl Iterator<Item = &[u8]> {
    text.split(|byte| matches!(byte, b'/' | b'\\'))
}

/// A word, a dot and a few small letters: a PCD's second word is longer, or begins with a capital.
fn is_file_name(text: &[u8]) -> bool {
    let (word, after) = split_run(text);
    let is_small = |byte: &u8| byte.is_ascii_lowercase() || byte.is_ascii_digit();
    let is_ending = |text: &[u8]| (1..=5).contains(&text.len()) && text.iter().all(is_small);
    starts_word(word) && after.strip_prefix(b".").is_some_and(is_ending)
}

/// Words with nothing but blanks between them, of which none is a word or a symbol of expressions. A word may have macros in it.
fn is_text(text: &[u8]) -> bool {
    let is_in_text = |byte: &u8| byte.is_ascii_alphanumeric() || b"_.-$() \t".contains(byte);
    let is_number =
        |word: &[u8]| single_token(word).is_some_and(|token| token.code == token::NUMBER);
    let is_other = |word: &[u8]| capitals(word).is_none() || is_number(word);
    let mut words = text.split(|byte| matches!(byte, b' ' | b'\t'));
    let starts = match (split_run(text), text) {
        (([b'0'..=b'9', ..], after), _) => after.starts_with(b"."),
        (_, [b'-', rest @ ..]) => starts_word(rest),
        _ => starts_word(text) || text.starts_with(b"$("),
    };
    starts && text.iter().all(is_in_text) && words.all(is_other)
}

/// Whether a text starts as a word does: with a letter or `_`.
fn starts_word(text: &[u8]) -> bool {
    matches!(text, [b'A'..=b'Z' | b'a'..=b'z' | b'_', ..])
}
