//! A text with a caret under one of its bytes.

use crate::terminal::{characters, columns, Shown};

/// The most columns that are shown of a text, and the most of them before the caret if the text is longer.
const MAX_COLUMNS: usize = 100;
const MAX_BEFORE: usize = 60;

const INDENT: &str = "    ";
const CUT: &str = "...";

/// The text as it is shown, and below it a caret under the byte at `offset`, or after the last one. Of a long text the part around that
/// byte is shown.
pub fn excerpt(text: &[u8], offset: usize) -> String {
    let all: Vec<Shown> = characters(text).collect();
    let at = all.partition_point(|shown| shown.offset < offset);
    let (start, end) = part(&all, at);
    let left = if start > 0 { CUT } else { "" };
    let right = if end < all.len() { CUT } else { "" };
    let line: String = all[start..end]
        .iter()
        .map(|one| one.text.as_str())
        .collect();
    let below: String = all[start..at].iter().map(|one| blank(&one.text)).collect();
    let below = blank(left) + &below;
    format!("{INDENT}{left}{line}{right}\n{INDENT}{below}^\n")
}

/// Where the part that is shown starts and ends.
fn part(all: &[Shown], at: usize) -> (usize, usize) {
    if width(all) <= MAX_COLUMNS {
        return (0, all.len());
    }
    let before = fitting(all[..at].iter().rev(), MAX_BEFORE);
    let room = MAX_COLUMNS - width(&all[at - before..at]);
    (at - before, at + fitting(all[at..].iter(), room))
}

/// How many characters fit into these columns; of those that take none, no more than that.
fn fitting<'a>(characters: impl Iterator<Item = &'a Shown>, room: usize) -> usize {
    let mut used = 0;
    let fits = |shown: &&Shown| {
        used += columns(&shown.text);
        used <= room
    };
    characters.take(room).take_while(fits).count()
}

fn width(part: &[Shown]) -> usize {
    part.iter().map(|shown| columns(&shown.text)).sum()
}

/// As many blanks as the text has columns; a tab stays a tab, so that it ends at the same stop.
fn blank(text: &str) -> String {
    match text {
        "\t" => text.into(),
        _ => " ".repeat(columns(text)),
    }
}
