//! Shapes of DEFINE lines (document 02, order 6): right ones, others, and lines
//! that only look like one.

use oracle::definition::after_define;

use super::directives::{tail, BLANKS};
use crate::prng::Prng;

/// What can be after `DEFINE` and has another shape than it takes.
#[rustfmt::skip]
pub const MALFORMED: &[&[u8]] = &[
    b"", b" ", b"\t", b"#", b" # c", b"=", b" =", b"=1", b"==", b" == 1", b" = 1", b".x", b".A = 1", b"\"", b"'A' = 1", b"(A) = 1",
    b" $(A) = 1", b"$(A) = 1", b" $(A)=1", b" A", b"\tA\t", b" A 1", b" A 1 = 1", b" A B = 1", b" A #= 1", b" A# = 1", b" #A = 1",
    b" A := 1", b" A += 1", b" A != 1", b" A ! = 1", b" a = 1", b" aA = 1", b" Aa = 1", b" A.b = 1", b" g.Num = 1", b" 1 = 1", b" 1A = 1",
    b" _A = 1", b" A- = 1", b" A@= 1", b" \"A\" = 1", b" 'A' = 1", b"\rA = 1", b" \rA = 1", b" A\r= 1", b"\x0bA = 1", b" A\x0b= 1", b"\0",
    b" A\0= 1", b"\0 A = 1", b" \xe9 = 1", b" A\xe9 = 1", b"\xe9 A = 1", b"-A = 1", b"!A = 1", b"@", b" @", b":A = 1", b"$A = 1",
    b" $A = 1",
];

/// Lines whose first word is another, or that have none. They are all plain.
#[rustfmt::skip]
pub const NEARLY: &[&[u8]] = &[
    b"DEFINED X = 1", b"DEFINED", b"DEFINES", b"DEFINE_ A = 1", b"DEFINE_A = 1", b"DEFINE1 A = 1", b"DEFINEA = 1", b"DEFINEa A = 1",
    b"_DEFINE A = 1", b"xDEFINE A = 1", b"1DEFINE A = 1", b"define A = 1", b"Define A = 1", b"DEFINe A = 1", b"DEFIN A = 1", b"EFINE A = 1",
    b"DEF INE A = 1", b"D EFINE A = 1", b"DEFIN\0E A = 1", b"#DEFINE A = 1", b"# DEFINE A = 1", b"\"DEFINE A = 1\"", b".DEFINE A = 1",
    b"=DEFINE A = 1", b"$DEFINE A = 1", b"(DEFINE A = 1)", b"x DEFINE A = 1", b"EDK_GLOBAL A = 1", b"EDK_GLOBAL DEFINE A = 1", b"A = 1",
    b"\rDEFINE A = 1", b"\x0bDEFINE A = 1", b"\0DEFINE A = 1", b"\xef\xbb\xbfDEFINE A = 1", b"\xc4EFINE A = 1", b"!include DEFINE A = 1",
    b"!error\tDEFINE", b"!include9DEFINE A = 1", b"DEFINE0", b"DEFINEz",
];

/// Whether the first word is `DEFINE`.
pub fn is_one(line: &[u8]) -> bool {
    after_define(line).is_some()
}

/// A plain line that looks like a DEFINE line.
pub fn nearly(rng: &mut Prng) -> Vec<u8> {
    [rng.pick(BLANKS), rng.pick(NEARLY)].concat()
}

/// A line that is well shaped, if the name is a macro's.
pub fn line(rng: &mut Prng, name: &[u8], value: &[u8]) -> Vec<u8> {
    let gap: &[u8] = rng.pick(&[&b" "[..], b" ", b" ", b"\t", b"  ", b" \t "]);
    let [left, right]: [&[u8]; 2] =
        [0, 1].map(|_| rng.pick(&[&b" "[..], b" ", b"", b"\t", b" \t "]));
    [
        rng.pick(BLANKS),
        b"DEFINE",
        gap,
        name,
        left,
        b"=",
        right,
        value,
        tail(rng),
    ]
    .concat()
}
