//! Files with a condition that is read and mostly refused, for the offset
//! within its line (document 02, order 3).

use oracle::selection::MAX_LINE;

use super::directives::{broken_name, name, rubbish, BLANKS};
use super::places;
use super::settings::Names;
use crate::prng::Prng;

/// Lines before which the condition is the first of a group, or a later one.
const OPENINGS: [(&str, &[&str]); 7] = [
    ("if", &[]),
    ("if", &["x", "", "!include @"]),
    ("if", &["!if 1", "x"]),
    ("elseif", &["!if 0"]),
    ("elif", &["!ifdef NOPE", "x", "!elseif 0"]),
    (
        "elseif",
        &["!if 1", "!if 0", "!if @", "!elseif @", "!endif"],
    ),
    (
        "elif",
        &[
            "!if 0",
            "!endif",
            "!if 1",
            "!elif @",
            "!endif",
            "!ifndef NOPE",
            "!if 0",
        ],
    ),
];

/// A few lines, one of them such a condition, or another directive whose text
/// may be malformed.
pub fn any(rng: &mut Prng, names: &Names) -> Vec<Vec<u8>> {
    let (word, before) = rng.pick(&OPENINGS);
    let mut lines: Vec<Vec<u8>> = before.iter().map(|line| line.as_bytes().to_vec()).collect();
    let (word, text) = match rng.below(14) {
        0 => (rng.pick(&["ifdef", "ifndef"]), name(rng, names)),
        12 | 13 => (rng.pick(&["ifdef", "ifndef"]), broken_name(rng, names)),
        1 => (
            rng.pick(&["ifdef", "ifndef", "if", "else", "endif"]),
            rubbish(rng),
        ),
        _ => (word, places::any(rng, names)),
    };
    let blanks: &[u8] = rng.pick(&[&b" "[..], b" ", b"\t", b"\t \t", b"    "]);
    let mut line = [rng.pick(BLANKS), b"!", word.as_bytes(), blanks, &text].concat();
    if rng.one_in(6) {
        lengthen(rng, &mut line, word.len());
    }
    lines.push(line);
    lines.extend([b"!if @".to_vec(), b"!endif".to_vec()]);
    lines
}

/// Blanks before the `!`, after the word or at the end, so that the line has
/// about as many bytes as it may.
fn lengthen(rng: &mut Prng, line: &mut Vec<u8>, word: usize) {
    let room = rng
        .between(MAX_LINE - 2, MAX_LINE + 1)
        .saturating_sub(line.len());
    let mark = line.iter().position(|&byte| byte == b'!').unwrap_or(0);
    let at = rng.pick(&[0, mark + 1 + word, line.len()]);
    let blanks = rng.pick(b" \t");
    line.splice(at..at, vec![blanks; room]);
}

/// Texts that are refused as conditions, each number with and without
/// something before its place; the last ones are refused without a place.
#[rustfmt::skip]
const TEXTS: [&str; 35] = [
    "@", "1 == foo", "1.a", "$(A) 'a", "L'a", "18446744073709551616", "0 - 18446744073709551616", "", "1", "1 1", ")", "1 +", "1 + ",
    "(1 ? 2)", "1 ? 2 : ", "g.None", "0 AND g.None", "-'a'", "'a' + (1 ? 'b' : 2)", "-1", "0 OR 5 - 7", "1 / 0", "1 AND 2 % 0",
    "1 || g.None", "1 | 'a'", "0 || 1 / 0", "2", "'a'", "1 + 1", "0",
    "'a' == a", "'a' EQ a.1", "'a' NE L", "'a' == (a)", "'a' == a b",
];

/// Each of them after every word that takes a condition, with all kinds of
/// blanks and ends.
pub fn all() -> Vec<Vec<u8>> {
    let mut files = Vec::new();
    for text in TEXTS {
        for (word, before) in OPENINGS {
            let before: String = before.iter().map(|line| format!("{line}\n")).collect();
            for front in ["", " ", "\t \t"] {
                for blanks in [" ", "\t", "  \t"] {
                    for tail in ["", " ", "\t#c"] {
                        for end in ["", "\n", "\r\n", "\r\r\n", "\r", "\n!endif\n"] {
                            let line = format!("{front}!{word}{blanks}{text}{tail}{end}");
                            files.push(format!("{before}{line}").into_bytes());
                        }
                    }
                }
            }
        }
        for len in MAX_LINE - 1..=MAX_LINE + 1 {
            let blanks = "\t".repeat(len - 4 - text.len());
            for end in ["", "\r\n"] {
                files.push(format!("{blanks}!if {text}{end}").into_bytes());
                files.push(format!("!if {blanks}{text}{end}").into_bytes());
                files.push(format!("!if {text}{blanks}{end}").into_bytes());
                files.push(format!("!if {text}#{}{end}", &blanks[1..]).into_bytes());
            }
        }
    }
    files
}
