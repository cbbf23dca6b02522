//! Bare words (document 02, order 5): strings without quotes, which the old
//! edition takes right after an equality operator, and what only looks so.

use oracle::tokens::{MAX_BYTES, MAX_TOKENS};

use crate::prng::Prng;

pub const EQUALITIES: [&str; 4] = ["==", "!=", "EQ", "NE"];

/// The first ones are also strings of tables and of expressions.
#[rustfmt::skip]
const WORDS: [&str; 40] = [
    "a", "ab", "abc", "b", "a", "ab", "_", "L", "l", "A", "Z", "z9", "_0", "__", "L1", "LL", "Lx", "L_", "foo", "DEBUG", "GCC5", "x0x1",
    "tRUE", "TRUE1", "fALSE", "Not", "NOTE", "And", "aND", "Xor", "Or", "lt", "Le", "gT", "ge", "eq", "Eq", "ne", "IN", "LABEL",
];

/// Other tokens, bad ones, and bare words with something after them.
#[rustfmt::skip]
const NEARLY: [&[u8]; 66] = [
    b"1a", b"0x", b"007", b"1_", b"0L", b"9", b"TRUE", b"False", b"NOT", b"not", b"AND", b"and", b"XOR", b"OR", b"or", b"LT", b"LE",
    b"GE", b"EQ", b"NE", b"a.b", b"L.L", b"_._", b"AND.x", b"TRUE.t", b"g.Str", b"a.1", b"a.", b"a..b", b"a .b", b"a. b", b"L.1",
    b"AND.1", b"TRUE.", b"a.b.c", b"L\"", b"L'", b"L'a", b"L\"a'", b"L\"a\"", b"L''", b"L 'a'", b"L\t\"", b"LL'a'", b"l'a'",
    b"_\"a\"", b"a'b'", b"a\"", b"L\"a\rb\"", b"(a)", b"(L)", b"!a", b"-a", b"~ a", b"NOT a", b"a b", b"a a", b"== a", b"EQ a",
    b"= a", b"a@", b"a\xe9", b"\xe9a", b"$(a)", b"a$(A)", b"#a",
];

/// Operators after which no edition takes a bare word.
#[rustfmt::skip]
const OTHERS: [&str; 18] = [
    "<", "<=", ">=", "LT", "GT", "+", "-", "&&", "AND", "OR", "|", "?", ":", "(", "=", "! =", "eq", "NOT",
];

/// A word that the old edition takes after an equality operator.
pub fn word(rng: &mut Prng) -> &'static str {
    match rng.below(2) {
        0 => rng.pick(&WORDS[..6]),
        _ => rng.pick(&WORDS),
    }
}

/// A string compared with a bare word.
pub fn equality(rng: &mut Prng, left: &[u8]) -> Vec<u8> {
    let operator = rng.pick(&["==", "!=", " == ", " !=\t", " EQ ", "\tNE "]);
    [left, operator.as_bytes(), word(rng).as_bytes()].concat()
}

fn word_or_nearly(rng: &mut Prng, nearly_one_in: usize) -> Vec<u8> {
    match rng.below(12) {
        _ if rng.one_in(nearly_one_in) => rng.pick(&NEARLY).to_vec(),
        0 => any_run(rng),
        _ => word(rng).into(),
    }
}

/// Any run without a digit first, sometimes a word that is none of these.
fn any_run(rng: &mut Prng) -> Vec<u8> {
    let len = match rng.below(20) {
        0 => rng.between(50, 300),
        _ => rng.below(5),
    };
    let mut run = vec![rng.pick(b"aAzZLEN_eqntT")];
    run.extend((0..len).map(|_| rng.pick(b"aAzZLEQN_09rux")));
    run
}

/// Comparisons with bare words, and with what is nearly one. Many are good in
/// the old edition, if macros have the kinds that most tables give them.
pub fn any(rng: &mut Prng) -> Vec<u8> {
    // Some have good words only, so that they are read to their end.
    let nearly_one_in = rng.pick(&[2, 8, 1_000_000, 1_000_000]);
    let mut expr = Vec::new();
    let turns = match rng.below(30) {
        0 => rng.between(45, 55),
        _ => rng.pick(&[1, 1, 1, 2, 2, 3, 6]),
    };
    // Now and then about as many parentheses as there may be.
    let pairs = if rng.one_in(20) {
        rng.between(15, 18)
    } else {
        0
    };
    let deep = rng.between(1, turns);
    for turn in 1..=turns {
        if turn == deep {
            expr.extend(b"(".repeat(pairs));
        }
        expr.extend(left(rng).bytes());
        expr.extend(operator(rng));
        expr.extend(word_or_nearly(rng, nearly_one_in));
        if turn < turns {
            expr.extend(joint(rng).bytes());
        }
    }
    expr.extend(b")".repeat(pairs));
    let tail = rng.pick(&["", "", "", " ", "\t#c", "#", " ? 1 : 2", " == 1"]);
    expr.extend(tail.bytes());
    expr
}

/// Mostly a string.
#[rustfmt::skip]
fn left(rng: &mut Prng) -> &'static str {
    match rng.below(8) {
        0 => rng.pick(&["1", "L'a'", "$(NOPE)", "('a'", "", "1 / 0 ==", "$(W)", "g.None", "18446744073709551616 =="]),
        _ => rng.pick(&["'a'", "\"ab\"", "'b'", "('a')", "$(S)", "$(TARGET)", "g.Str", "''"]),
    }
}

/// Mostly an equality operator, with blanks round it.
fn operator(rng: &mut Prng) -> Vec<u8> {
    let operator = match rng.below(16) {
        0 => rng.pick(&OTHERS),
        _ => rng.pick(&EQUALITIES),
    };
    // Now and then a word without a blank beside it, so that it is no word.
    let needs_blanks = operator.as_bytes()[0].is_ascii_alphabetic() && !rng.one_in(30);
    let from = if needs_blanks { 2 } else { 0 };
    let [before, after] = [0, 1].map(|_| rng.pick(&["", "", " ", " ", "\t", " \t "][from..]));
    [before, operator, after].concat().into_bytes()
}

#[rustfmt::skip]
fn joint(rng: &mut Prng) -> &'static str {
    match rng.below(10) {
        0 => rng.pick(&[" ", "|", " ? ", " : ", " < ", " == ", "", "#"]),
        1 => rng.pick(&[" || ", "||", " | "]),
        _ => rng.pick(&[" AND ", " OR ", "&&", " XOR ", " and ", " or ", " ? 1 : ", "\tAND\t", " == 1 AND "]),
    }
}

/// Every word and nearly word after every operator, with and without blanks, at
/// the start and later; and about as many tokens and bytes as there may be.
pub fn all() -> Vec<Vec<u8>> {
    let mut all = Vec::new();
    let words = || WORDS.iter().map(|word| word.as_bytes()).chain(NEARLY);
    for operator in EQUALITIES.iter().chain(&OTHERS) {
        for blanks in ["", " ", "\t "] {
            for word in words() {
                for (front, back) in [
                    ("", ""),
                    ("'a'", ""),
                    ("$(S) ", " #"),
                    ("('a' ", ")"),
                    ("0 AND 'ab' ", " == 1"),
                    ("1 ? $(S) ", " : 0"),
                ] {
                    let front = [front, operator, blanks].concat();
                    all.push([front.as_bytes(), word, back.as_bytes()].concat());
                }
            }
        }
    }
    for operator in EQUALITIES {
        for word in words() {
            // The word is about token 200.
            for count in MAX_TOKENS - 3..=MAX_TOKENS {
                let front = format!("{}{operator} ", "+".repeat(count));
                for tail in [&b""[..], b" ", b"#", b" b", b".1", b" == b", b"'"] {
                    all.push([front.as_bytes(), word, tail].concat());
                }
            }
        }
        for len in MAX_BYTES - 1..=MAX_BYTES + 2 {
            for start in ["a", "L", "_", "1"] {
                let front = format!("''{operator} {start}");
                all.push(format!("{front}{}", "w".repeat(len - front.len())).into_bytes());
            }
        }
    }
    all
}
