//! Expressions for fields, with a datum code and a buffer's length that
//! often just suit.

use oracle::Kind as Found;

use super::bare_words;
use super::formulas::{formula, number, Place};
use super::numbers::EDGES;
use super::settings::{Kind, Names};
use super::values;
use crate::prng::Prng;

/// Mostly a value that some datum takes.
pub fn expression(rng: &mut Prng, names: &Names) -> Vec<u8> {
    match rng.below(11) {
        0 | 1 => rng.pick(&EDGES).to_string().into_bytes(),
        2 => number(rng).into_bytes(),
        3 => formula(rng, names, Some(Kind::Text), Place::Alone),
        4 => formula(rng, names, Some(Kind::Wide), Place::Alone),
        5..=7 => bare_words::any(rng),
        _ => values::any(rng, names, Place::Alone),
    }
}

/// Mostly a datum code that takes a value of this kind.
pub fn datum(rng: &mut Prng, kind: Option<Found>) -> u8 {
    match (rng.below(16), kind) {
        (0, _) => rng.byte(),
        (1, _) => rng.pick(&[6, 7, 255]),
        (2 | 3, _) | (_, None) => rng.below(6) as u8,
        (_, Some(Found::Number)) => rng.between(1, 5) as u8,
        (_, Some(Found::Text | Found::Wide)) => 0,
    }
}

/// How long the buffer is, about the length that the field needs.
pub fn room(rng: &mut Prng, needed: usize) -> usize {
    let less = rng.below(needed + 1);
    let more = needed + rng.below(40);
    rng.pick(&[
        needed,
        needed,
        needed + 1,
        needed.saturating_sub(1),
        less,
        more,
        0,
    ])
}
