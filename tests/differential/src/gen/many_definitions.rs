//! Files with about as many different macros as DEFINE lines may set.

use oracle::settings::MAX_DEFINED;
use oracle::table::{MAX_STRING, NAME};

use super::definitions::bad;
use super::directives::plain;
use super::names::macro_name;
use super::settings::{Kind, Names, KINDS};
use super::shapes::line;
use crate::prng::Prng;

pub fn any(rng: &mut Prng, names: &Names) -> Vec<Vec<u8>> {
    let near = rng.between(MAX_DEFINED - 3, MAX_DEFINED + 3);
    let count = rng.pick(&[near, MAX_DEFINED]);
    let set = different(rng, names, count);
    let kind = rng.pick(&KINDS);
    let mut lines = Vec::new();
    for (index, name) in set.iter().enumerate() {
        lines.push(line(rng, name, &value(kind, index)));
        let earlier = rng.between(0, index);
        let again = line(rng, &set[earlier], &value(kind, earlier));
        match rng.below(40) {
            0 | 1 => lines.push(again),
            2 => lines.extend([b"!if 1".to_vec(), again, b"!endif".to_vec()]),
            3 => lines.extend([
                b"!if 0".to_vec(),
                line(rng, b"OTHER", b"1"),
                b"!endif".to_vec(),
            ]),
            4 => lines.push(plain(rng)),
            _ => {}
        }
    }
    for _ in 0..rng.below(3) {
        let last = at_the_limit(rng, names, &set, kind);
        lines.push(last);
    }
    for _ in 0..rng.between(1, 6) {
        let index = rng.below(set.len());
        lines.extend(asked(rng, &set[index], &value(kind, index)));
    }
    lines
}

/// Names that are hard to tell apart, in any order.
fn different(rng: &mut Prng, names: &Names, count: usize) -> Vec<Vec<u8>> {
    let family = rng.below(5);
    let mut set: Vec<Vec<u8>> = (0..count)
        .map(|index| match family {
            0 => format!("M{index}").into_bytes(),
            // Each is the beginning of the next.
            1 if index < NAME => b"N".repeat(index + 1),
            2 => format!("{}{index:02}", "N".repeat(NAME - 2)).into_bytes(),
            3 => format!("N{index:02}{}", "N".repeat(NAME - 3)).into_bytes(),
            // Some of them are the table's, and some are perhaps the same.
            4 => names
                .pick_macro(rng, Kind::Number)
                .unwrap_or(macro_name(rng, 3)),
            _ => macro_name(rng, 2 + index % 62),
        })
        .collect();
    match rng.below(4) {
        0 => set.reverse(),
        1 => {}
        _ => (1..count).for_each(|index| set.swap(index, rng.between(0, index))),
    }
    set
}

/// The value of the macro at this place.
fn value(kind: Kind, index: usize) -> Vec<u8> {
    match kind {
        Kind::Number => index.to_string(),
        Kind::Text => format!("'{index:0>MAX_STRING$}'"),
        Kind::Wide => format!("L'{index}'"),
    }
    .into_bytes()
}

/// A line that is refused or not, depending on how many macros are set.
fn at_the_limit(rng: &mut Prng, names: &Names, set: &[Vec<u8>], kind: Kind) -> Vec<u8> {
    let again = &set[rng.below(set.len())];
    let index = rng.below(100);
    let long = format!(
        "'{}'",
        "s".repeat(rng.between(MAX_STRING - 1, MAX_STRING + 1))
    )
    .into_bytes();
    let of_table = names.pick_macro(rng, kind).unwrap_or(b"A".to_vec());
    match rng.below(8) {
        0 => line(rng, again, &value(kind, index)),
        1 => line(rng, again, &long),
        2 | 3 => line(rng, &of_table, &value(kind, index)),
        4 => line(rng, b"ANOTHER", &long),
        5 => bad(rng, names),
        _ => line(rng, b"ANOTHER", &value(kind, index)),
    }
}

/// A group whose first branch is taken if the macro has this value, or if it is
/// set at all.
fn asked(rng: &mut Prng, name: &[u8], value: &[u8]) -> Vec<Vec<u8>> {
    let condition = match rng.below(3) {
        0 => [b"!ifdef ", name].concat(),
        1 => [b"!ifndef ", name].concat(),
        _ => [b"!if $(", name, b") == ", value].concat(),
    };
    [&condition[..], b"x", b"!else", b"DEFINE A = 1", b"!endif"]
        .map(<[u8]>::to_vec)
        .to_vec()
}

/// Every number of macros about the limit, and each kind of line after them.
pub fn all() -> Vec<String> {
    let mut files = Vec::new();
    for count in MAX_DEFINED - 2..=MAX_DEFINED + 3 {
        let set = |index: usize| format!("DEFINE M{index} = {index}\n");
        let ascending: String = (0..count).map(set).collect();
        let descending: String = (0..count).rev().map(set).collect();
        for front in [ascending, descending] {
            for last in last_lines() {
                for (open, close) in [("", ""), ("!if 1\n", "!endif\n"), ("!if 0\n", "!endif\n")] {
                    files.push(format!("{front}{open}{last}\n{close}!ifdef A\n!endif\n"));
                    files.push(format!(
                        "{open}{front}{last}\n{close}!if $(M5) == 5\n!endif\n"
                    ));
                }
            }
        }
    }
    files
}

/// The table has `A`.
fn last_lines() -> Vec<String> {
    let mut lines: Vec<String> = [
        "",
        "x",
        "DEFINE A = 1",
        "DEFINE M0 = 1",
        "DEFINE M63 = 1",
        "DEFINE M64 = 1",
        "DEFINE M5 = $(M5)",
    ]
    .map(str::to_string)
    .to_vec();
    lines.extend(
        [
            "DEFINE B",
            "DEFINE B =",
            "DEFINE B = 1 | 1",
            "DEFINE B = 1 / 0",
            "DEFINED B = 1",
        ]
        .map(str::to_string),
    );
    for name in ["A", "B", "M0", "M5"] {
        for len in MAX_STRING - 1..=MAX_STRING + 1 {
            for wide in ["", "L"] {
                lines.push(format!("DEFINE {name} = {wide}'{}'", "s".repeat(len)));
            }
        }
    }
    lines
}
