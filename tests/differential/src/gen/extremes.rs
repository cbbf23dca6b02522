//! Expressions with a derivation at or just past a limit.

use super::bare_words::EQUALITIES;
use super::formulas::{formula, number, Place, COMPARISONS, NUMERIC};
use super::numbers::EDGES;
use super::settings::Names;
use crate::prng::Prng;

pub fn extreme(rng: &mut Prng, names: &Names, place: Place) -> Vec<u8> {
    match rng.below(10) {
        0 => long(rng, names, place),
        1 => long_strings(rng),
        8 => long_words(rng),
        9 => many_words(rng),
        2 => unary_chain(rng),
        3 => binary_chain(rng, place),
        4 => choices_to_the_right(rng),
        5 => choices_in_the_middle(rng),
        6 => deep(rng, names, place),
        _ => edges(rng, place),
    }
}

/// In parentheses, since there may be bars. Half of the conditions do without.
fn enclosed(rng: &mut Prng, expr: String, place: Place) -> Vec<u8> {
    match place {
        Place::Condition if place.leaves_bars(rng) => expr,
        _ => format!("({expr})"),
    }
    .into_bytes()
}

/// 1,022 to 1,026 bytes, blanks or a comment among them.
fn long(rng: &mut Prng, names: &Names, place: Place) -> Vec<u8> {
    let mut expr = formula(rng, names, None, place);
    let room = rng.between(1_022, 1_026).saturating_sub(expr.len());
    match rng.below(3) {
        0 => expr.extend(b"\t".repeat(room)),
        1 => drop(expr.splice(0..0, b" ".repeat(room))),
        _ => expr.extend(b"#".repeat(room)),
    }
    expr
}

/// A string of nearly the whole length, or two that differ at their ends.
fn long_strings(rng: &mut Prng) -> Vec<u8> {
    let wide = rng.pick(&["", "L"]);
    if rng.one_in(2) {
        let len = rng.between(1_019, 1_025);
        return format!("{wide}'{}'", "s".repeat(len - 2)).into_bytes();
    }
    let len = rng.between(495, 505);
    let (operator, _) = rng.pick(&COMPARISONS);
    let [left, right] = [0, 1].map(|_| rng.pick(&["", "a", "b", "\x01"]));
    let same = "s".repeat(len);
    format!("{wide}'{same}{left}'{operator} {wide}'{same}{right}'").into_bytes()
}

/// A string and a bare word that differ at their ends.
fn long_words(rng: &mut Prng) -> Vec<u8> {
    let len = rng.between(495, 508);
    let [left, right] = [0, 1].map(|_| rng.pick(&["", "a", "b", "_"]));
    let same = "s".repeat(len);
    format!("'{same}{left}'{} {same}{right}", rng.pick(&EQUALITIES)).into_bytes()
}

/// 191 to 203 tokens, a quarter of them bare words.
fn many_words(rng: &mut Prng) -> Vec<u8> {
    let mut expr = String::new();
    for _ in 0..rng.between(47, 50) {
        let operator = rng.pick(&EQUALITIES);
        let joint = rng.pick(&["AND", "OR", "XOR", "&&"]);
        expr += &format!("'a'{operator} {} {joint} ", rng.pick(&["a", "b", "L"]));
    }
    expr += rng.pick(&["1", "'a' == a", "'a' == a b"]);
    expr.into_bytes()
}

/// 196 to 202 tokens, of which all but the last are unary operators.
fn unary_chain(rng: &mut Prng) -> Vec<u8> {
    let operators = rng.pick(&[
        &["!"][..],
        &["~"],
        &["+"],
        &["-"],
        &["!", "~", "+", "NOT ", "not "],
    ]);
    let mut expr = String::new();
    for _ in 0..rng.between(195, 201) {
        expr += rng.pick(operators);
    }
    expr += rng.pick(&["0", "1", "''", "$(A)", "g.Num"]);
    expr.into_bytes()
}

/// 195 to 203 tokens, the operators in between those of one or all levels.
/// Without parentheses there are two fewer.
fn binary_chain(rng: &mut Prng, place: Place) -> Vec<u8> {
    let level = rng.between(2, 16) as u8;
    let operators: Vec<&str> = NUMERIC
        .iter()
        .chain(&COMPARISONS)
        .filter(|(_, own)| *own == level || level > 12)
        .map(|(operator, _)| *operator)
        .collect();
    let operands = rng.pick(&[&["0", "1"][..], &["0", "1", "2", "3"], &["1"]]);
    let mut expr = rng.pick(operands).to_string();
    for _ in 0..rng.between(96, 100) {
        expr += &format!(" {} {}", rng.pick(&operators), rng.pick(operands));
    }
    enclosed(rng, expr, place)
}

/// 193 to 205 tokens of choices, each the last arm of the one before.
fn choices_to_the_right(rng: &mut Prng) -> Vec<u8> {
    let mut expr = String::new();
    for _ in 0..rng.between(48, 51) {
        expr += &format!("{}?{}:", rng.pick(&["0", "0", "0", "1"]), rng.below(9));
    }
    expr += "9";
    expr.into_bytes()
}

/// The same with each in the middle of the one before.
fn choices_in_the_middle(rng: &mut Prng) -> Vec<u8> {
    let count = rng.between(48, 51);
    let mut expr = String::new();
    for _ in 0..count {
        expr += rng.pick(&["0?", "1?", "1?", "1?", "1?"]);
    }
    expr += "9";
    for _ in 0..count {
        expr += &format!(":{}", rng.below(9));
    }
    expr.into_bytes()
}

/// A formula in about 16 parentheses, some of them one too many.
fn deep(rng: &mut Prng, names: &Names, place: Place) -> Vec<u8> {
    let pairs = rng.between(11, 17);
    let inner = formula(rng, names, None, place);
    [&b"(".repeat(pairs), &inner[..], &b")".repeat(pairs)].concat()
}

/// One operator, or two, on numbers at which answers change.
fn edges(rng: &mut Prng, place: Place) -> Vec<u8> {
    let mut expr = rng.pick(&EDGES).to_string();
    for _ in 0..rng.between(1, 2) {
        let (operator, _) = rng.pick(&NUMERIC);
        let operand = match rng.below(2) {
            0 => number(rng),
            _ => rng.pick(&EDGES).to_string(),
        };
        expr += &format!(" {operator} {operand}");
    }
    enclosed(rng, expr, place)
}
