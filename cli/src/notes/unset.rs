//! Notes on macros that a read line names and that are not set there.

use std::collections::{BTreeSet, HashSet};

use super::known::Known;
use super::note::Note;
use super::similar::similar;
use crate::description::{define, Mention, Sort};
use crate::examined::Examined;
use crate::terminal::escaped;

/// One note for each name, at its first place. A name that is meant to be unset has none, and one to which the file gives a value right
/// after it asked.
pub fn notes(
    file: &Examined,
    read: &[(usize, &[u8])],
    mentions: &[(usize, Mention)],
    known: &Known,
) -> Vec<Note> {
    let mut seen = HashSet::new();
    let mut notes = Vec::new();
    for (line, mention) in mentions {
        let (line, name) = (*line, mention.name);
        if mention.sort != Sort::Macro || !seen.insert(name) || known.is_settled(name, line) {
            continue;
        }
        if mention.word == b"ifndef" && is_set_next(line, name, read) {
            continue;
        }
        let (kind, text) = words(mention);
        let more = match known.first_line(name).filter(|later| *later > line) {
            Some(later) => format!("; line {later} sets it"),
            None => alike(name, line, known),
        };
        notes.push(Note {
            kind,
            file: Some(file.name.to_vec()),
            line,
            column: mention.offset + 1,
            name: Some(name.to_vec()),
            text: text + &more,
        });
    }
    notes
}

/// Whether the first line that is read after this one is a `DEFINE` of a name.
fn is_set_next(line: usize, name: &[u8], read: &[(usize, &[u8])]) -> bool {
    let next = read.partition_point(|(number, _)| *number <= line);
    let found = read.get(next).and_then(|(_, text)| define(text)?.ok());
    found.is_some_and(|found| found.name == name)
}

/// The kind and the text of a note.
fn words(mention: &Mention) -> (&'static str, String) {
    let name = escaped(mention.text);
    match mention.word {
        b"ifdef" => (
            "unset-ifdef",
            format!("{name} is not set, so `!ifdef` is false"),
        ),
        b"ifndef" => (
            "unset-ifdef",
            format!("{name} is not set, so `!ifndef` is true"),
        ),
        _ => (
            "unset-macro",
            format!("{name} is not set, so it is the number 0"),
        ),
    }
}

/// How many similar names a note lists.
const MAX_LISTED: usize = 5;

/// The names that are set at a line and differ by one slip of the pen.
fn alike(name: &[u8], line: usize, known: &Known) -> String {
    let set = known.names(line).filter(|set| similar(name, set));
    let in_order: BTreeSet<&[u8]> = set.collect();
    let found: Vec<String> = in_order.into_iter().map(escaped).collect();
    match found.as_slice() {
        [] => String::new(),
        [one] => format!("; {one} is set"),
        [first @ .., last] if first.len() < MAX_LISTED => {
            format!("; {} and {last} are set", first.join(", "))
        }
        all => {
            let (listed, more) = all.split_at(MAX_LISTED);
            format!("; {} and {} more are set", listed.join(", "), more.len())
        }
    }
}
