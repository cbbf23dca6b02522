//! Refusals of description files.

use super::expression::PLACED;
use super::message::Message;
use super::{define, directive, groups, line};
use crate::description::{self, first_byte};
use crate::library::{refusal, Refusal, Terms};
use crate::terminal::{lines, without_end, Refused};

/// The refusal of a file. One of a line that has no place of its own is shown at the line's first byte that is no blank, where its
/// directive starts.
pub fn of_file(name: &[u8], file: &[u8], terms: Terms, refusal: &Refusal) -> Refused {
    let Refusal {
        number,
        line,
        offset,
    } = *refusal;
    let lines: Vec<&[u8]> = lines(file).map(without_end).collect();
    let text = line.checked_sub(1).and_then(|before| lines.get(before));
    let place = text.map(|text| match PLACED.contains(&number) {
        true => (*text, offset),
        false => (*text, first_byte(text)),
    });
    let message = Message {
        name,
        line,
        number,
        place,
        hint: place.and_then(|(_, offset)| hint(&lines, terms, line, number, offset)),
    };
    message.refused()
}

/// What helps with the refusal of a line.
fn hint(lines: &[&[u8]], terms: Terms, line: usize, number: u8, offset: usize) -> Option<String> {
    let (before, text) = (&lines[..line - 1], lines[line - 1]);
    let defined = description::define(text);
    match number {
        refusal::LINE_LONG => Some(format!("it has {} bytes without its end", text.len())),
        refusal::DIRECTIVE_STRAY => Some(groups::stray(before)),
        refusal::NESTING_DEEP => Some(groups::too_many(before)),
        refusal::FILE_UNFINISHED => Some(groups::unclosed(lines)),
        refusal::WORD_UNKNOWN => Some(directive::unknown_word(text)),
        refusal::TEXT_MALFORMED => match defined {
            Some(found) => found.err().map(|slip| define::malformed(&slip)),
            None => directive::malformed(text, terms.edition),
        },
        refusal::DEFINED_MANY => Some(define::too_many(defined?.ok()?.name)),
        _ => line::hint(before, text, terms, number, offset),
    }
}
