//! DEFINE lines (document 02, order 6) with all sorts of values, good and bad.

use oracle::table::{MAX_STRING, NAME};

use super::directives::{comparison, joined, plain, rubbish, written, BLANKS};
use super::expressions::damage;
use super::formulas::{formula, number, Place};
use super::names::{macro_name, NUMBERS, TEXTS, UNSET, WIDES};
use super::places;
use super::settings::{Kind, Names, KINDS};
use super::shapes::{line, MALFORMED};
use super::values;
use crate::prng::Prng;

/// Mostly a line that sets a macro where it is kept. `is_kept` says whether
/// that is known; if not, the kind mostly stays with the name.
pub fn good(rng: &mut Prng, names: &mut Names, is_kept: bool) -> Vec<u8> {
    if rng.one_in(120) {
        return bad(rng, names);
    }
    let (name, kind) = match is_kept || rng.one_in(100) {
        true => any_target(rng, names),
        false => same_kind(rng, names),
    };
    let value = value(rng, names, kind);
    names.define(&name, kind);
    line(rng, &name, &value)
}

fn any_kind(rng: &mut Prng) -> Kind {
    rng.pick(&[
        Kind::Number,
        Kind::Number,
        Kind::Number,
        Kind::Text,
        Kind::Text,
        Kind::Wide,
    ])
}

/// A macro with its kind or another, or one that is not set yet.
fn any_target(rng: &mut Prng, names: &Names) -> (Vec<u8>, Kind) {
    let (kind, other) = (any_kind(rng), rng.pick(&KINDS));
    let name = match rng.below(8) {
        0..=2 => new_name(rng),
        3 => names.pick_macro(rng, other).unwrap_or(new_name(rng)),
        _ => names.pick_macro(rng, kind).unwrap_or(new_name(rng)),
    };
    (name, kind)
}

/// A macro with the kind that it has, which is a number's where it is not set.
fn same_kind(rng: &mut Prng, names: &Names) -> (Vec<u8>, Kind) {
    let kind = any_kind(rng);
    let name = match rng.below(6) {
        0 => new_name(rng),
        _ => names.pick_macro(rng, kind).unwrap_or(new_name(rng)),
    };
    let kind = names.kind_of(&name).unwrap_or(Kind::Number);
    (name, kind)
}

fn new_name(rng: &mut Prng) -> Vec<u8> {
    match rng.below(8) {
        0 => {
            let len = rng.pick(&[1, 2, 3, 8, 16, NAME - 1, NAME, NAME]);
            macro_name(rng, len)
        }
        1 => rng
            .pick(&["DEFINE", "A_", "AB0", "TRUE", "AND", "L", "S0"])
            .into(),
        _ => rng.pick(&UNSET).into(),
    }
}

/// Mostly an expression with a value of this kind.
fn value(rng: &mut Prng, names: &Names, kind: Kind) -> Vec<u8> {
    match (rng.below(20), kind) {
        (0, _) => formula(rng, names, Some(kind), Place::Alone),
        (1, _) => choice(rng, names, kind),
        (2..=4, _) => written(names.pick(rng, kind)),
        (5 | 6, Kind::Number) => changed(rng, names),
        (7 | 8, Kind::Number) => comparison(rng, names),
        (9, Kind::Number) => [b"(", &joined(rng, names)[..], b")"].concat(),
        _ => literal(rng, kind),
    }
}

/// A number, or a string of either kind.
pub fn literal(rng: &mut Prng, kind: Kind) -> Vec<u8> {
    match kind {
        Kind::Number if rng.one_in(6) => number(rng).into(),
        Kind::Number => rng
            .pick(&["0", "1", "1", "2", "3", "TRUE", "False", "48", "0x10"])
            .into(),
        Kind::Text => string(rng),
        Kind::Wide => [b"L", &string(rng)[..]].concat(),
    }
}

fn string(rng: &mut Prng) -> Vec<u8> {
    let content = match rng.below(12) {
        0 => long_content(
            rng,
            &[MAX_STRING - 2, MAX_STRING - 1, MAX_STRING, MAX_STRING],
        ),
        1 => rng
            .pick(&[
                &b"a\0"[..],
                b"\0",
                b"a\0b",
                b"\xff",
                b"#",
                b"|",
                b"$(A)",
                b" ",
            ])
            .to_vec(),
        _ => rng.pick(&["", "a", "a", "ab", "ab", "abc", "b"]).into(),
    };
    quoted(rng, &content)
}

fn quoted(rng: &mut Prng, content: &[u8]) -> Vec<u8> {
    let quote: &[u8] = rng.pick(&[&b"'"[..], b"\""]);
    [quote, content, quote].concat()
}

/// Two of them mostly differ in their last bytes only, if they do.
fn long_content(rng: &mut Prng, lengths: &[usize]) -> Vec<u8> {
    let mut content = b"s".repeat(rng.pick(lengths));
    if let Some(last) = content.last_mut() {
        *last = rng.pick(b"sst\0");
    }
    content
}

fn choice(rng: &mut Prng, names: &Names, kind: Kind) -> Vec<u8> {
    let test = comparison(rng, names);
    let [yes, no] = [0, 1].map(|_| match rng.below(3) {
        0 => written(names.pick(rng, kind)),
        _ => literal(rng, kind),
    });
    [&test[..], b" ? ", &yes, b" : ", &no].concat()
}

/// What a macro has, and one more or less of it.
fn changed(rng: &mut Prng, names: &Names) -> Vec<u8> {
    let name = written(names.pick(rng, Kind::Number));
    let (front, back) = rng.pick(&[
        ("", " + 1"),
        ("", " * 2"),
        ("!", ""),
        ("1 + ", ""),
        ("", " / 2"),
        ("(1 | ", ")"),
        ("(0 || ", ")"),
        ("", " % 3"),
        ("", " - 0"),
    ]);
    [front.as_bytes(), &name, back.as_bytes()].concat()
}

/// Values that are refused.
#[rustfmt::skip]
const BAD_VALUES: [&str; 12] = [
    "", "# 1", "= 1", "== 1", "=", "= # 1", "=1 = 1", "18446744073709551616", "1 + 0x10000000000000000", "1 | 1", "g.None",
    "(((((((((((((((((1)))))))))))))))))",
];

/// A line that is mostly refused where it is kept.
pub fn bad(rng: &mut Prng, names: &Names) -> Vec<u8> {
    let name = new_name(rng);
    let value = match rng.below(16) {
        0..=3 => return [rng.pick(BLANKS), b"DEFINE", rng.pick(MALFORMED)].concat(),
        4 => return long_name(rng),
        5 => {
            let value = value(rng, names, Kind::Number);
            let mut line = line(rng, &name, &value);
            damage(rng, &mut line);
            return line;
        }
        6 | 7 => long_string(rng),
        8 => values::any(rng, names, Place::Alone),
        9 | 10 => {
            let [left, right] = [0, 1].map(|_| joined(rng, names));
            let bar: &[u8] = rng.pick(&[&b"|"[..], b" || ", b" | "]);
            [&left[..], bar, &right].concat()
        }
        11 => rng.pick(&BAD_VALUES).into(),
        _ => places::any(rng, names),
    };
    line(rng, &name, &value)
}

/// About as long as a name may be.
fn long_name(rng: &mut Prng) -> Vec<u8> {
    let len = rng.pick(&[NAME - 1, NAME, NAME + 1, NAME + 1, NAME + 2, 100, 300]);
    let name = macro_name(rng, len);
    line(rng, &name, b"1")
}

/// About as long as a string may be, or one of several that are.
fn long_string(rng: &mut Prng) -> Vec<u8> {
    let wide: &[u8] = rng.pick(&[&b""[..], b"L"]);
    let [one, other] = [0, 1].map(|_| {
        let lengths = [
            MAX_STRING - 1,
            MAX_STRING,
            MAX_STRING + 1,
            MAX_STRING + 1,
            MAX_STRING + 2,
            200,
            256,
        ];
        let content = long_content(rng, &lengths);
        [wide, &quoted(rng, &content)].concat()
    });
    match rng.below(4) {
        0 => [&one[..], b" == ", &other].concat(),
        1 => [
            rng.pick(&[&b"0"[..], b"1"]),
            b" ? ",
            &one[..],
            b" : ",
            &other,
        ]
        .concat(),
        _ => one,
    }
}

/// Any line for a branch that is not taken. Some would set a macro.
pub fn dropped(rng: &mut Prng) -> Vec<u8> {
    match rng.below(6) {
        0 => [rng.pick(BLANKS), b"DEFINE", rng.pick(MALFORMED)].concat(),
        1 => [b"DEFINE A =", &rubbish(rng)[..]].concat(),
        2 | 3 => {
            let names = [&NUMBERS[..5], &TEXTS[..2], &WIDES[..1], &UNSET].concat();
            let name = rng.pick(&names);
            let kind = rng.pick(&KINDS);
            let value = literal(rng, kind);
            line(rng, name.as_bytes(), &value)
        }
        _ => plain(rng),
    }
}
