//! The groups that are open at a line, for refusals of the nesting.

use super::brief::brief;
use crate::description::directive;

/// The lines of a group's first directive and of its `!else`, counted from 1.
struct Group<'a> {
    opened: usize,
    word: &'a [u8],
    else_line: Option<usize>,
}

/// The groups that are open after these lines, the innermost last.
fn open<'a>(lines: &[&'a [u8]]) -> Vec<Group<'a>> {
    let mut groups: Vec<Group> = Vec::new();
    for (line, text) in (1..).zip(lines) {
        let word = directive(text).map_or(b"".as_slice(), |found| found.word);
        match (word, groups.last_mut()) {
            (b"if" | b"ifdef" | b"ifndef", _) => groups.push(Group {
                opened: line,
                word,
                else_line: None,
            }),
            (b"else", Some(group)) => group.else_line = Some(line),
            (b"endif", Some(_)) => {
                groups.pop();
            }
            _ => {}
        }
    }
    groups
}

/// Why a directive after these lines belongs to no group.
pub fn stray(before: &[&[u8]]) -> String {
    match open(before).last() {
        Some(Group {
            opened,
            word,
            else_line: Some(line),
        }) => format!(
            "its group has its `!else` in line {line} already, and its `!{}` in line {opened}",
            brief(word)
        ),
        _ => "no `!if`, `!ifdef` or `!ifndef` is open here".into(),
    }
}

/// Where the groups that are open after these lines begin.
pub fn too_many(before: &[&[u8]]) -> String {
    format!("they begin in {}", listed(&open(before)))
}

/// What is missing at the end of a file, with the groups around the one that is reported.
pub fn unclosed(all: &[&[u8]]) -> String {
    let groups = open(all);
    match groups.split_last() {
        Some((_, around)) if !around.is_empty() => {
            format!(
                "its `!endif` is missing; open around it: {}",
                listed(around)
            )
        }
        _ => "its `!endif` is missing".into(),
    }
}

fn listed(groups: &[Group]) -> String {
    let lines: Vec<String> = groups
        .iter()
        .map(|group| group.opened.to_string())
        .collect();
    match lines.as_slice() {
        [one] => format!("line {one}"),
        [first @ .., last] => format!("lines {} and {last}", first.join(", ")),
        [] => "no line".into(),
    }
}
