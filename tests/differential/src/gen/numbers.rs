//! Numbers at which arithmetic, shifts and fields change their answers.

use crate::prng::Prng;

/// The ends of the ranges of 1, 8, 16, 32 and 64 bits, and shift counts.
#[rustfmt::skip]
pub const EDGES: [u64; 26] = [
    0, 1, 2, 3, 5, 7, 8, 31, 32, 62, 63, 64, 65, 127, 255, 256, 257, 65_535, 65_536,
    u32::MAX as u64, 1 << 32, (1 << 63) - 1, 1 << 63, u64::MAX / 3, u64::MAX - 1, u64::MAX,
];

/// Mostly small, so that most operators have a result.
pub fn edge(rng: &mut Prng) -> u64 {
    match rng.below(8) {
        0 => rng.pick(&EDGES),
        1 => rng.next() >> rng.below(64),
        _ => rng.below(5) as u64,
    }
}
