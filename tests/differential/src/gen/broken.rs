//! Formulas with tokens lost, added or exchanged, so that most have no
//! derivation, or are cut off.

use super::expressions::{join_apart, join_well};
use super::formulas::{written, Faults};
use super::settings::Names;
use crate::prng::Prng;

/// A token of every class that the grammar distinguishes, brackets and the
/// parts of a choice more than once.
#[rustfmt::skip]
const TOKENS: [&str; 22] = [
    "1", "a", "L", "'a'", "$(A)", "g.Num", "(", "(", "(", ")", ")", ")", "?", "?", ":", ":", "!", "-", "NOT", "*", "AND", "==",
];

pub fn broken(rng: &mut Prng, names: &Names) -> Vec<u8> {
    let faults = Faults {
        kind: 20,
        missing: 40,
        value: 20,
    };
    let mut pieces = written(rng, names, None, faults);
    for _ in 0..rng.pick(&[1, 1, 1, 2, 4]) {
        change(rng, &mut pieces);
    }
    match rng.below(3) {
        0 => join_well(rng, &pieces),
        _ => join_apart(rng, &pieces),
    }
}

fn change(rng: &mut Prng, pieces: &mut Vec<Vec<u8>>) {
    let token = rng.pick(&TOKENS).as_bytes().to_vec();
    let at = rng.below(pieces.len() + 1);
    if at == pieces.len() {
        return pieces.push(token);
    }
    let other = rng.below(pieces.len());
    match rng.below(7) {
        0 | 1 => drop(pieces.remove(at)),
        2 | 3 => pieces.insert(at, token),
        4 => pieces[at] = token,
        5 => pieces.swap(at, other),
        _ => pieces.truncate(at),
    }
}
