//! Expressions, good and bad.

use super::bare_words::{self, EQUALITIES};
use super::lexemes::{BAD_TAILS, GOOD, NAMED, NEARLY, STRAYS, SYMBOLS, TAILS};
use super::names::{macro_name, pcd_name, NUMBERS, TEXTS, WIDES};
use crate::prng::Prng;

/// Any expression.
pub fn any(rng: &mut Prng) -> Vec<u8> {
    let mut expr = match rng.below(15) {
        0 => random_bytes(rng),
        1..=3 => soup(rng),
        4 | 5 => valid(rng),
        6 => damaged(rng, soup),
        7 | 8 => damaged(rng, valid),
        9 | 10 => bare_words::any(rng),
        11 => damaged(rng, bare_words::any),
        _ => near_a_limit(rng),
    };
    if rng.one_in(10) {
        expr.extend(rng.pick(TAILS));
    }
    expr
}

fn random_bytes(rng: &mut Prng) -> Vec<u8> {
    let len = match rng.below(20) {
        0 => rng.between(900, 1_100),
        _ => rng.below(40),
    };
    let sort = rng.below(4);
    (0..len)
        .map(|_| match sort {
            0 => rng.byte(),
            1 => rng.pick(b"LTEGNAORXandorx01_.$(\"') "),
            2 => rng.pick(SYMBOLS),
            _ => b' ' + rng.below(95) as u8,
        })
        .collect()
}

/// Tokens in any order, and sometimes what is nearly one.
fn soup(rng: &mut Prng) -> Vec<u8> {
    let len = match rng.below(15) {
        0 => rng.between(150, 220),
        _ => rng.below(25),
    };
    // Some have good tokens only, so that long ones are read to their end.
    let bad_one_in = rng.pick(&[4, 20, 60, 1_000_000]);
    let mut pieces: Vec<Vec<u8>> = Vec::new();
    for _ in 0..len {
        let after_equality = pieces.last().is_some_and(|last| is_equality(last));
        pieces.push(if after_equality && rng.one_in(2) {
            bare_words::word(rng).into()
        } else if !rng.one_in(bad_one_in) {
            rng.pick(GOOD).to_vec()
        } else if rng.one_in(4) {
            vec![rng.pick(STRAYS)]
        } else {
            rng.pick(NEARLY).to_vec()
        });
    }
    match rng.below(4) {
        0 => pieces.join(&b' '),
        1 => join_tightly(&pieces),
        2 => pieces.concat(),
        _ => join_unevenly(rng, &pieces),
    }
}

fn is_equality(piece: &[u8]) -> bool {
    EQUALITIES
        .iter()
        .any(|operator| operator.as_bytes() == piece)
}

/// A blank goes only where two runs would otherwise become one.
fn join_tightly(pieces: &[Vec<u8>]) -> Vec<u8> {
    let is_run = |byte: Option<&u8>| byte.is_some_and(|&byte| oracle::bytes::is_run(byte));
    let mut out: Vec<u8> = Vec::new();
    for piece in pieces {
        if is_run(out.last()) && is_run(piece.first()) {
            out.push(b' ');
        }
        out.extend(piece);
    }
    out
}

fn join_unevenly(rng: &mut Prng, pieces: &[Vec<u8>]) -> Vec<u8> {
    let mut out = Vec::new();
    for piece in pieces {
        let blanks: &[u8] = rng.pick(&[&b""[..], b" ", b"\t", b"  "]);
        out.extend(blanks);
        out.extend(piece);
    }
    out
}

/// At least one blank between any two.
pub fn join_apart(rng: &mut Prng, pieces: &[Vec<u8>]) -> Vec<u8> {
    let mut out = Vec::new();
    for piece in pieces {
        out.extend(piece);
        let blanks: &[u8] = rng.pick(&[&b" "[..], b" ", b"\t", b"  ", b" \t "]);
        out.extend(blanks);
    }
    out
}

pub fn join_well(rng: &mut Prng, pieces: &[Vec<u8>]) -> Vec<u8> {
    match rng.below(2) {
        0 => join_tightly(pieces),
        _ => pieces.join(&b' '),
    }
}

// An expression with a derivation.

#[derive(Clone, Copy, PartialEq)]
enum Kind {
    Number,
    Text,
    Wide,
}

const UNARY: [&str; 6] = ["!", "NOT", "not", "~", "+", "-"];

const COMPARISONS: [&str; 12] = [
    "<", "<=", ">", ">=", "==", "!=", "LT", "LE", "GT", "GE", "EQ", "NE",
];

const OTHERS: [&str; 18] = [
    "*", "/", "%", "+", "-", "<<", ">>", "&", "^", "|", "&&", "AND", "and", "XOR", "xor", "||",
    "OR", "or",
];

/// An expression with a derivation. Its kinds mostly suit as well.
pub fn valid(rng: &mut Prng) -> Vec<u8> {
    let size = match rng.below(20) {
        0 => rng.between(60, 190),
        _ => rng.between(1, 24),
    };
    let kind = match rng.below(12) {
        0 => Kind::Text,
        1 => Kind::Wide,
        _ => Kind::Number,
    };
    let mut pieces = Vec::new();
    derive(rng, kind, size, &mut pieces);
    if rng.one_in(2) {
        // Makes bars allowed.
        pieces.insert(0, b"(".to_vec());
        pieces.push(b")".to_vec());
    }
    join_well(rng, &pieces)
}

/// Adds the tokens of an expression of about `size` tokens.
fn derive(rng: &mut Prng, kind: Kind, size: usize, out: &mut Vec<Vec<u8>>) {
    fn push(out: &mut Vec<Vec<u8>>, text: &str) {
        out.push(text.as_bytes().to_vec());
    }
    let shape = match (size, kind) {
        (0..=1, _) => 0,
        (2, _) => rng.below(2),
        (_, Kind::Number) => rng.between(1, 9),
        _ => rng.between(2, 4),
    };
    match (shape, kind) {
        (1, Kind::Number) => {
            push(out, rng.pick(&UNARY));
            derive(rng, kind, size - 1, out);
        }
        (0 | 1, _) => out.push(operand(rng, kind)),
        (2, _) => {
            push(out, "(");
            derive(rng, kind, size - 2, out);
            push(out, ")");
        }
        (3 | 4, _) => {
            // In parentheses, or its kind would depend on what is around it.
            push(out, "(");
            derive(rng, Kind::Number, size / 3, out);
            push(out, "?");
            derive(rng, kind, size / 3, out);
            push(out, ":");
            derive(rng, kind, size / 3, out);
            push(out, ")");
        }
        (5, _) => {
            let compared = rng.pick(&[Kind::Text, Kind::Wide]);
            push(out, "(");
            derive(rng, compared, size / 2, out);
            push(out, rng.pick(&COMPARISONS));
            match compared == Kind::Text && rng.one_in(4) {
                true => push(out, bare_words::word(rng)),
                false => derive(rng, compared, size / 2, out),
            }
            push(out, ")");
        }
        _ => {
            derive(rng, kind, size / 2, out);
            if rng.one_in(4) {
                push(out, rng.pick(&COMPARISONS));
            } else {
                push(out, rng.pick(&OTHERS));
            }
            derive(rng, kind, size / 2, out);
        }
    }
}

fn operand(rng: &mut Prng, kind: Kind) -> Vec<u8> {
    // Now and then another kind, to see it refused.
    let kind = match rng.below(40) {
        0 => rng.pick(&[Kind::Number, Kind::Text, Kind::Wide]),
        _ => kind,
    };
    let name = match kind {
        Kind::Number => rng.pick(&NUMBERS),
        Kind::Text => rng.pick(&TEXTS),
        Kind::Wide => rng.pick(&WIDES),
    };
    let text = rng.pick(&["\"\"", "'a'", "\"ab\"", "'abc'", "\"b # '\""]);
    let small = rng.pick(&["0", "1", "TRUE", "False", "2", "0x10"]);
    match (rng.below(3), kind) {
        (0, _) if name.contains('.') => name.to_string(),
        (0, _) => format!("$({name})"),
        (_, Kind::Text) => text.to_string(),
        (_, Kind::Wide) => format!("L{text}"),
        (1, Kind::Number) => small.to_string(),
        (_, Kind::Number) => literal(rng),
    }
    .into_bytes()
}

/// A number that fits 64 bits, often near a power of two.
fn literal(rng: &mut Prng) -> String {
    let power = 1u64 << rng.below(64);
    let any = rng.next() >> rng.below(64);
    let number = rng.pick(&[power, power - 1, power | 1, any, u64::MAX]);
    match rng.below(2) {
        0 => format!("{number}"),
        _ => format!("0x{number:X}"),
    }
}

// Damage.

fn damaged(rng: &mut Prng, make: fn(&mut Prng) -> Vec<u8>) -> Vec<u8> {
    let mut expr = make(rng);
    for _ in 0..rng.between(1, 3) {
        damage(rng, &mut expr);
    }
    expr
}

/// Changes one place of the expression.
pub fn damage(rng: &mut Prng, expr: &mut Vec<u8>) {
    let byte = match rng.below(3) {
        0 => rng.byte(),
        1 => rng.pick(SYMBOLS),
        _ => rng.pick(b"ALx0_.$\"'# \t\r1"),
    };
    let at = rng.below(expr.len() + 1);
    if at == expr.len() {
        expr.push(byte);
        return;
    }
    match rng.below(6) {
        0 => drop(expr.remove(at)),
        1 => expr.insert(at, byte),
        2 => expr[at] = byte,
        3 => {
            let other = rng.below(expr.len());
            expr.swap(at, other);
        }
        4 => expr.truncate(at),
        _ => {
            let end = rng.between(at, expr.len().min(at + 8));
            let copy = expr[at..end].to_vec();
            expr.splice(at..at, copy);
        }
    }
}

// Limits.

fn near_a_limit(rng: &mut Prng) -> Vec<u8> {
    match rng.below(6) {
        0 => near_the_length(rng),
        1 => near_the_token_count(rng),
        2 => near_the_depth(rng),
        3 => signed_depth(rng),
        4 => near_the_largest_literal(rng),
        _ => near_the_longest_name(rng),
    }
}

/// 1,022 to 1,027 bytes, made up in different ways.
fn near_the_length(rng: &mut Prng) -> Vec<u8> {
    let len = rng.between(1_022, 1_027);
    let mut expr = valid(rng);
    expr.truncate(900);
    let room = len - expr.len();
    match rng.below(9) {
        0 => [&b" ".repeat(room), &expr[..]].concat(),
        1 => [&expr[..], &b"\t".repeat(room)].concat(),
        2 => [&expr[..], b"#", &b"x".repeat(room - 1)].concat(),
        3 => [b"\"", &b"s".repeat(len - 2)[..], b"\""].concat(),
        4 => [b"0x", &b"0".repeat(len - 3)[..], b"7"].concat(),
        5 => [b"a.", &b"b".repeat(len - 2)[..]].concat(),
        6 => [b"$(", &b"M".repeat(len - 3)[..], b")"].concat(),
        7 => [b"''==", &b"w".repeat(len - 4)[..]].concat(),
        // A symbol as the last byte, which a neighbour could make longer.
        _ => [&b" ".repeat(len - 1)[..], &[rng.pick(SYMBOLS)]].concat(),
    }
}

/// 197 to 202 tokens, and something after them.
fn near_the_token_count(rng: &mut Prng) -> Vec<u8> {
    let count = rng.between(197, 202);
    let sort = rng.below(5);
    let mut pieces: Vec<Vec<u8>> = (0..count)
        .map(|place| match sort {
            0 => b"-".to_vec(),
            1 => vec![b"1+"[place % 2]],
            2 => vec![b"()"[place % 2]],
            3 => vec![rng.pick(b"?:~+-*/%^()")],
            _ => b"''".to_vec(),
        })
        .collect();
    if rng.one_in(3) {
        pieces[count - 2] = rng.pick(&EQUALITIES).into();
        pieces[count - 1] = bare_words::word(rng).into();
    }
    // The last tokens are the interesting ones.
    for _ in 0..rng.below(3) {
        let at = rng.between(count - 3, count - 1);
        pieces[at] = match rng.below(2) {
            0 => rng.pick(NEARLY).to_vec(),
            _ => rng.pick(GOOD).to_vec(),
        };
    }
    let mut expr = join_well(rng, &pieces);
    expr.extend(match rng.below(2) {
        0 => rng.pick(TAILS),
        _ => rng.pick(BAD_TAILS),
    });
    expr
}

/// 15 to 18 pairs, not always closed, sometimes around a macro.
fn near_the_depth(rng: &mut Prng) -> Vec<u8> {
    let open = rng.between(15, 18);
    let close = match rng.below(3) {
        0 => rng.below(20),
        _ => open,
    };
    let middle: &[u8] = rng.pick(&[&b"1"[..], b"$(A)", b"", b"1 | 2", b"'('", b"(1) + (2)"]);
    let mut expr = [&b"(".repeat(open), middle, &b")".repeat(close)].concat();
    if rng.one_in(4) {
        expr.extend(b" + ");
        expr.extend(near_the_depth(rng));
    }
    expr
}

/// The difference goes below zero first, or wanders about.
fn signed_depth(rng: &mut Prng) -> Vec<u8> {
    if rng.one_in(2) {
        let close = rng.between(1, 30);
        let open = close + rng.between(14, 18);
        return [&b")".repeat(close)[..], &b"(".repeat(open), b"1"].concat();
    }
    let upward = rng.between(4, 7);
    (0..rng.between(20, 199))
        .map(|_| if rng.below(10) < upward { b'(' } else { b')' })
        .collect()
}

fn near_the_largest_literal(rng: &mut Prng) -> Vec<u8> {
    let limit = 1u128 << 64;
    let number = match rng.below(5) {
        0 => limit - 1 - rng.below(12) as u128,
        1 => limit + rng.below(12) as u128,
        2 => (limit >> rng.below(5)) * (1 + rng.below(40) as u128),
        3 => limit / 10 * 10 + rng.below(30) as u128,
        _ => u128::from(rng.next()) * (1 + rng.below(30) as u128),
    };
    let zeros = "0".repeat(rng.pick(&[0, 0, 1, 5, 16, 40]));
    let literal = match rng.below(5) {
        0 => format!("{number:x}"),
        1 => format!("0x{zeros}{number:x}"),
        2 => format!("0X{zeros}{number:X}"),
        3 => format!("{zeros}{number}"),
        _ => format!("{number}"),
    };
    let before = rng.pick(&["", "", "1 + ", "(", "-", "@ "]);
    let after = rng.pick(&["", "", " ", " + 1", "x", "_", ".a", "#", "\"", ")"]);
    format!("{before}{literal}{after}").into_bytes()
}

/// Macro and PCD names of about 64 bytes, as many as a record has for a name.
fn near_the_longest_name(rng: &mut Prng) -> Vec<u8> {
    let len = rng.pick(&[62, 63, 64, 65, 66, 67, 128, 129, 255, 256, 257]);
    let name = match rng.below(2) {
        0 => macro_name(rng, len),
        _ => pcd_name(rng, len),
    };
    let (before, after): (&[u8], &[u8]) = rng.pick(&[
        (b"", b" == 1"),
        (b"$(", b")"),
        (b"1 + $(", b""),
        (b"(", b")"),
        (b"", b".x"),
        (b"x.", b""),
        (b"!$", b""),
        (b"'a' == ", b""),
        (b"'a' != ", b".1"),
    ]);
    [before, &name, after].concat()
}

/// Expressions that the papers name or that lie right at a limit.
pub fn corners() -> Vec<Vec<u8>> {
    let mut corners: Vec<Vec<u8>> = [GOOD, NEARLY, NAMED]
        .concat()
        .iter()
        .map(|bytes| bytes.to_vec())
        .collect();
    for len in 1_023..=1_026 {
        corners.push(b" ".repeat(len));
        corners.push([b"1#", &b"@".repeat(len - 2)[..]].concat());
        corners.push([b"'", &b"x".repeat(len - 2)[..], b"'"].concat());
        corners.push([b"\"", &b"x".repeat(len - 1)[..]].concat());
        corners.push([b"0x", &b"0".repeat(len - 3)[..], b"1"].concat());
        corners.push([&b" ".repeat(len - 1)[..], b"<"].concat());
    }
    // Token 200 and what comes after it.
    let lasts: &[&[u8]] = &[
        b"0", b"1.a", b"a.b.c", b"AND.1", b"===", b"a.1", b"@", b"$(A)", b"#",
    ];
    for count in 198..=202 {
        for last in lasts {
            for tail in [TAILS, BAD_TAILS].concat() {
                corners.push([&b"+".repeat(count - 1), *last, tail].concat());
            }
        }
    }
    // A bare word as one of the last tokens.
    for count in 196..=201 {
        for word in [&b"a"[..], b"L", b"L'", b"a.1", b"a b"] {
            for tail in [TAILS, BAD_TAILS].concat() {
                corners.push([&b"+".repeat(count), &b"=="[..], word, tail].concat());
            }
        }
    }
    for depth in 15..=18 {
        for middle in [&b"1"[..], b"$(A)", b"'('"] {
            corners.push([&b"(".repeat(depth), middle, &b")".repeat(depth)].concat());
        }
        for close in [1, 10, 40] {
            corners.push([b")".repeat(close), b"(".repeat(close + depth)].concat());
        }
    }
    for len in 63..=66 {
        corners.push([b"$(", &b"X".repeat(len)[..], b")"].concat());
        corners.push([b"x.", &b"X".repeat(len - 2)[..]].concat());
    }
    corners
}
