//! Names of macros and PCDs, for tables and for expressions.

use crate::prng::Prng;

// Both tables and expressions take these, so that they meet. They are apart
// by the kind that a table mostly gives them.

pub const NUMBERS: [&str; 8] = ["A", "B", "AB", "FOO", "WEEK", "g.Num", "AND.x", "_a._b"];
pub const TEXTS: [&str; 4] = ["S", "TARGET", "g.Str", "TRUE.t"];
pub const WIDES: [&str; 3] = ["W", "g.Wide", "L.L"];

/// Macros that such a table does not have. DEFINE lines set them.
pub const UNSET: [&str; 5] = ["D", "D0", "D1", "NEW", "NOPE"];

/// A macro name of this many bytes.
pub fn macro_name(rng: &mut Prng, len: usize) -> Vec<u8> {
    let mut name = vec![rng.pick(b"ABZ")];
    name.extend((1..len).map(|_| rng.pick(b"ABZ09_")));
    name
}

/// A PCD name of this many bytes, at least three.
pub fn pcd_name(rng: &mut Prng, len: usize) -> Vec<u8> {
    let mut name: Vec<u8> = (0..len).map(|_| rng.pick(b"aAzZ_09")).collect();
    let dot = rng.between(1, len - 2);
    name[0] = rng.pick(b"aZ_");
    name[dot] = b'.';
    name[dot + 1] = rng.pick(b"aZ_");
    name
}
