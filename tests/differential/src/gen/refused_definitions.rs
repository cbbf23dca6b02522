//! Files with a DEFINE line that is mostly refused, for its number and for the
//! offset within its line, and the same line where it is dropped.

use oracle::selection::MAX_LINE;
use oracle::table::{MAX_STRING, NAME};

use super::definitions::bad;
use super::settings::Names;
use super::shapes::{MALFORMED, NEARLY};
use crate::prng::Prng;

/// Lines before one that is kept.
const KEPT: [&[&str]; 7] = [
    &[],
    &["x", "", "!include @"],
    &["DEFINE B = 1"],
    &["!if 1", "x"],
    &["!if 0", "DEFINE", "!else"],
    &["!ifdef NOPE", "!elif 1"],
    &["!if 1", "!if 0", "!endif", "!ifndef B", "DEFINE B = 2"],
];

/// Lines before one that is dropped.
const DROPPED: [&[&str]; 5] = [
    &["!if 0"],
    &["!if 1", "!else"],
    &["!if 1", "!elif @"],
    &["!if 0", "!if @", "!else"],
    &["DEFINE B = 1", "!ifndef B", "!ifdef B"],
];

/// What closes the groups of these lines, and asks what is set.
fn after(before: &[&str]) -> Vec<&'static str> {
    let count = |word: &str| before.iter().filter(|line| line.starts_with(word)).count();
    let mut lines = vec!["!endif"; count("!if") - count("!endif")];
    lines.extend(["!ifdef A", "!if $(A) == 0", "!endif", "!endif"]);
    lines
}

/// A few lines, one of them such a DEFINE line, which is mostly kept.
pub fn any(rng: &mut Prng, names: &Names) -> Vec<Vec<u8>> {
    let before = match rng.below(5) {
        0 => rng.pick(&DROPPED),
        _ => rng.pick(&KEPT),
    };
    let mut line = bad(rng, names);
    if rng.one_in(8) {
        lengthen(rng, &mut line);
    }
    let bytes = |line: &&str| line.as_bytes().to_vec();
    let mut lines: Vec<Vec<u8>> = before.iter().map(bytes).collect();
    lines.push(line);
    lines.extend(after(before).iter().map(bytes));
    lines
}

/// Blanks at the front, after the `=` or at the end, so that the line has about
/// as many bytes as it may.
fn lengthen(rng: &mut Prng, line: &mut Vec<u8>) {
    let room = rng
        .between(MAX_LINE - 2, MAX_LINE + 1)
        .saturating_sub(line.len());
    let equals = line.iter().position(|&byte| byte == b'=');
    let at = rng.pick(&[0, equals.map_or(0, |equals| equals + 1), line.len()]);
    let blank = rng.pick(b" \t");
    line.splice(at..at, vec![blank; room]);
}

/// Values that are refused, each number with and without something before its
/// place, and a few that are not. The last ones are refused without a place.
#[rustfmt::skip]
const VALUES: [&str; 52] = [
    "@", "= 1", "== 1", "1 == foo", "foo", "A", "1.a", "$(A) 'a", "L'a", "18446744073709551616", "0 - 18446744073709551616", "", "1", "1 1",
    ")", "1 +", "1 + ", "(1 ? 2)", "1 ? 2 : ", "1 | 1", "1 || 1", "(1 | 1) || 1", "(1 || 1)", "g.None | 'a'", "0 OR 1", "g.None",
    "0 AND g.None", "A.A", "-'a'", "'a' + (1 ? 'b' : 2)", "-1", "0 OR 5 - 7", "1 / 0", "1 AND 2 % 0", "1 / $(A)", "$(A)", "$(B)", "$(NOPE)",
    "2", "'a'", "L'a'", "''", "'a' == a", "'a' EQ a.1", "'a' NE L", "'a' == (a)", "'a' == a b", "'#'", "0x", "007", "$(a)", "TRUE",
];

/// Each value and each other text after `DEFINE`, kept and dropped, with all
/// kinds of blanks and ends; and lines that only look so.
pub fn all() -> Vec<Vec<u8>> {
    let mut texts: Vec<Vec<u8>> = Vec::new();
    for value in VALUES.map(str::to_string).into_iter().chain(limits()) {
        for front in [
            "DEFINE A =",
            "\t DEFINE A =",
            "DEFINE\tA= ",
            " DEFINE  A\t=\t",
        ] {
            for tail in ["", " ", "\t#c"] {
                texts.push(format!("{front}{value}{tail}").into_bytes());
            }
        }
    }
    for text in MALFORMED {
        for front in ["DEFINE", " DEFINE", "\t \tDEFINE"] {
            texts.push([front.as_bytes(), text].concat());
        }
    }
    for len in NAME - 2..=NAME + 3 {
        texts.push(format!("DEFINE {}=1", "N".repeat(len)).into_bytes());
        texts.push(format!("DEFINE {} = 1", "N".repeat(len)).into_bytes());
        texts.push(format!("DEFINE {} ", "N".repeat(len)).into_bytes());
        texts.push(format!("DEFINE {} = @", "N".repeat(len)).into_bytes());
    }
    texts.extend(NEARLY.iter().map(|line| line.to_vec()));
    let mut files = Vec::new();
    for text in texts {
        for before in KEPT.iter().chain(&DROPPED) {
            let front: String = before.iter().map(|line| format!("{line}\n")).collect();
            for end in ["", "\n", "\r\n", "\r\r\n", "\r"] {
                files.push([front.as_bytes(), &text, end.as_bytes()].concat());
            }
            let back = after(before).join("\n");
            files.push([front.as_bytes(), &text, b"\n", back.as_bytes()].concat());
        }
    }
    for value in VALUES {
        let front = "DEFINE A =";
        for len in MAX_LINE - 1..=MAX_LINE + 1 {
            let blanks = "\t".repeat(len - front.len() - value.len());
            for end in ["", "\r\n"] {
                files.push(format!("{blanks}{front}{value}{end}").into_bytes());
                files.push(format!("{front}{blanks}{value}{end}").into_bytes());
                files.push(format!("{front}{value}{blanks}{end}").into_bytes());
                files.push(format!("{front}{value}#{}{end}", &blanks[1..]).into_bytes());
            }
        }
    }
    files
}

/// Strings of about the length that they may have, and values with 200 tokens or
/// 16 parentheses and one more.
fn limits() -> Vec<String> {
    let mut values = Vec::new();
    for len in MAX_STRING - 2..=MAX_STRING + 2 {
        let content = "s".repeat(len);
        for string in [format!("'{content}'"), format!("L\"{content}\"")] {
            values.push(format!("0 ? {string} : {string}"));
            values.push(format!("{string} == {string}"));
            values.push(format!("({string})"));
            values.push(string);
        }
    }
    for count in [199, 200] {
        values.push(format!("{}1", "!".repeat(count)));
    }
    for depth in [16, 17] {
        values.push(format!("{}1{}", "(".repeat(depth), ")".repeat(depth)));
    }
    values
}
