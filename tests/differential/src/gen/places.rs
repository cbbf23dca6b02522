//! Expressions that are mostly refused, at any place or at several, for the
//! offsets of refusals (document 02, order 3).

use super::broken::broken;
use super::expressions::{join_apart, join_well};
use super::formulas::{written, Faults};
use super::rivals;
use super::settings::Names;
use crate::prng::Prng;

pub fn any(rng: &mut Prng, names: &Names) -> Vec<u8> {
    let mut expr = match rng.below(8) {
        0..=2 => broken(rng, names),
        3 => rivals::any(rng),
        _ => faulty(rng, names),
    };
    // The front moves all places, the end only that of a good beginning.
    if rng.one_in(4) {
        let blanks: &[u8] = rng.pick(&[&b" "[..], b"\t", b"  \t"]);
        expr.splice(0..0, blanks.iter().copied());
    }
    let tail: &[u8] = rng.pick(&[&b""[..], b"", b"", b" ", b"\t ", b"#", b" # 1", b"#)"]);
    expr.extend(tail);
    expr
}

/// Often with several operands that are wrong, for the same reason or not, and
/// with bars where they happen to be.
fn faulty(rng: &mut Prng, names: &Names) -> Vec<u8> {
    let [kind, missing, value] = rng.pick(&[
        [3, 0, 0],
        [6, 0, 0],
        [0, 4, 0],
        [0, 0, 2],
        [0, 0, 4],
        [12, 12, 6],
    ]);
    let faults = Faults {
        kind,
        missing,
        value,
    };
    let mut pieces = written(rng, names, None, faults);
    if rng.one_in(2) {
        pieces.insert(0, b"(".to_vec());
        pieces.push(b")".to_vec());
    }
    match rng.below(2) {
        0 => join_well(rng, &pieces),
        _ => join_apart(rng, &pieces),
    }
}
