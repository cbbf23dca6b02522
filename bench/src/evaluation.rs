//! Times the value of an expression. Both sides check the whole table at each call, so a large table takes most of the time.

use std::hint::black_box;

use crate::edition::{DIALECT, EDITION};
use crate::expressions;
use crate::settings;
use crate::timing::{compare, compare_in, ROUNDS};

/// Calls of one expression in a round, so that reading the clock hardly counts.
const CALLS: usize = 1_000;

/// Rounds of work that takes long.
const LONG_ROUNDS: usize = 5;

const EQUAL: &str = "$(X) == TRUE";

/// All ten operators are applied where X is 1.
const TEN: &str = "($(X) + 2) * 3 - 1 << 2 >= 32 AND $(X) < 9 ? 6 & 3 ^ 1 : 4";

pub fn time() {
    let one = settings::record("X", 1);
    for (what, text) in [
        ("$(X) == TRUE, a table of 1 record", EQUAL),
        ("ten operators, a table of 1 record", TEN),
    ] {
        check(text, &one);
        compare(
            what,
            CALLS,
            || (0..CALLS).for_each(|_| proved(text, &one)),
            || (0..CALLS).for_each(|_| oracle(text, &one)),
        );
    }

    let small = small();
    time_small("a table of 1 record", ROUNDS, &small, &one);
    time_small(
        "a table of 500 records",
        LONG_ROUNDS,
        &small,
        &settings::table(),
    );
}

/// The first of them over an empty table, once.
pub fn once_unset() {
    proved(EQUAL, &[]);
}

/// The first of them, once.
pub fn once_equal() {
    proved(EQUAL, &settings::record("X", 1));
}

/// The second of them, once.
pub fn once_ten() {
    proved(TEN, &settings::record("X", 1));
}

fn small() -> Vec<String> {
    expressions::small([
        |i| format!("$(SETTING_{:04}) GE 48 OR $(ABSENT) LE 5", i % 500),
        |i| format!("(1 | 2) == {i} ? L'wide' : L'wider' # with a comment"),
    ])
}

fn time_small(of: &str, rounds: usize, small: &[String], table: &[u8]) {
    small.iter().for_each(|text| check(text, table));
    compare_in(
        rounds,
        &format!("a small expression (10,000, {rounds} rounds), {of}"),
        small.len(),
        || small.iter().for_each(|text| proved(text, table)),
        || small.iter().for_each(|text| oracle(text, table)),
    );
}

fn answer(text: &str, table: &[u8]) -> (u8, [u64; 7]) {
    let mut out = [0; 7];
    let refusal = bindings::evaluate(text.as_bytes(), table, DIALECT, &mut out);
    (refusal, out)
}

fn proved(text: &str, table: &[u8]) {
    black_box(answer(text, table));
}

fn oracle(text: &str, table: &[u8]) {
    let _ = black_box(oracle::evaluate(text.as_bytes(), table, EDITION));
}

/// Checks that an expression has a value, with the same count on both sides.
fn check(text: &str, table: &[u8]) {
    let (refusal, [_, _, count, ..]) = answer(text, table);
    let other = oracle::evaluate(text.as_bytes(), table, EDITION).map(|outcome| outcome.count);
    assert!(refusal == 0 && other == Ok(count), "{text}");
}
