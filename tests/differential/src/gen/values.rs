//! Expressions to be evaluated under a table.

use super::bare_words;
use super::expressions::{self, damage};
use super::extremes::extreme;
use super::formulas::{formula, Place, COMPARISONS, NUMERIC};
use super::numbers::EDGES;
use super::places;
use super::settings::Names;
use crate::prng::Prng;

/// Any expression; most have a value.
pub fn any(rng: &mut Prng, names: &Names, place: Place) -> Vec<u8> {
    match rng.below(18) {
        0 | 1 => expressions::any(rng),
        16 | 17 => bare_words::any(rng),
        2 => {
            let mut expr = formula(rng, names, None, place);
            damage(rng, &mut expr);
            expr
        }
        3 => extreme(rng, names, place),
        4..=7 => places::any(rng, names),
        _ => formula(rng, names, None, place),
    }
}

/// One token of every class that the grammar distinguishes, `||` beside `OR`,
/// since only the one is a bar, and a bare word.
#[rustfmt::skip]
const SORTS: [&str; 21] = [
    "0", "1", "'a'", "a", "L'a'", "-", "!", "*", "<<", "<", "==", "&", "|", "AND", "XOR", "OR", "||", "?", ":",
    "(", ")",
];

/// Every list of up to four tokens, with a blank before each.
pub fn token_lists() -> Vec<String> {
    let mut lists = vec![String::new()];
    let mut from = 0;
    for _ in 0..4 {
        let to = lists.len();
        for place in from..to {
            for token in SORTS {
                lists.push(format!("{} {token}", lists[place]));
            }
        }
        from = to;
    }
    lists
}

/// Every list of up to four tokens, alone and with a `)` after it, since
/// bars need a pair.
pub fn short_lists() -> Vec<Vec<u8>> {
    let mut lists = token_lists();
    let closed: Vec<String> = lists.iter().map(|list| format!("{list} )")).collect();
    lists.extend(closed);
    lists.into_iter().map(String::into_bytes).collect()
}

fn binary() -> impl Iterator<Item = &'static str> {
    NUMERIC
        .iter()
        .chain(&COMPARISONS)
        .map(|(operator, _)| *operator)
}

/// Every binary operator on every two numbers at which answers change.
pub fn edges() -> Vec<Vec<u8>> {
    let mut all = Vec::new();
    for operator in binary() {
        for left in EDGES {
            for right in EDGES {
                all.push(format!("({left} {operator} {right})").into_bytes());
            }
        }
    }
    all
}

/// Every two binary operators in a row, in both orders, on a few numbers;
/// each before and after a unary one and a choice as well.
pub fn neighbours() -> Vec<Vec<u8>> {
    let mut all = Vec::new();
    for first in binary() {
        for second in binary() {
            for (a, b, c) in [
                (0, 1, 2),
                (1, 0, 0),
                (2, 2, 2),
                (3, 1, 0),
                (6, 3, 3),
                (9, 4, 1),
            ] {
                all.push(format!("({a} {first} {b} {second} {c})"));
            }
        }
        for (a, b, c) in [(0, 1, 2), (1, 0, 3), (2, 2, 0)] {
            for unary in ["!", "NOT", "not", "~", "+", "-"] {
                all.push(format!("({unary} {a} {first} {b})"));
                all.push(format!("({a} {first} {unary} {b})"));
            }
            all.push(format!("({a} {first} {b} ? {c} : {a})"));
            all.push(format!("({a} ? {b} {first} {c} : {b})"));
            all.push(format!("({a} ? {b} : {c} {first} {b})"));
        }
    }
    all.into_iter().map(String::into_bytes).collect()
}

/// Every choice between two strings, equal ones too, so that the place of each
/// is compared: in the expression or in a table with these four names.
pub fn choices() -> Vec<Vec<u8>> {
    let strings = [
        "'ab'", "\"ab\"", "''", "L'ab'", "L''", "$(E)", "$(F)", "$(S)", "$(W)",
    ];
    let mut all = Vec::new();
    for yes in strings {
        for no in strings {
            for test in [0, 1] {
                all.push(format!("{test} ? {yes} : {no}"));
                all.push(format!("({test} ? ({yes}) : 0 ? {yes} : {no})"));
                all.push(format!("1 ? {test} ? {yes} : {no} : {yes}"));
            }
        }
    }
    all.into_iter().map(String::into_bytes).collect()
}
