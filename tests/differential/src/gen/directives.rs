//! What follows a directive's word, and lines made of it.

use super::bare_words;
use super::definitions;
use super::expressions::damage;
use super::formulas::{formula, Place, COMPARISONS};
use super::names::{macro_name, NUMBERS, TEXTS, WIDES};
use super::settings::{Kind, Names};
use super::shapes;
use super::values;
use crate::prng::Prng;

/// The words after `!`, the likelier ones more than once.
#[rustfmt::skip]
pub const WORDS: &[&str] = &[
    "if", "if", "ifdef", "ifndef", "elseif", "elif", "else", "endif", "endif", "endif", "include", "error",
];

/// Words that are none of them, or only begin like one.
#[rustfmt::skip]
pub const NEARLY_WORDS: &[&str] = &[
    "", " if", "If", "IF", "ifd", "ifx", "ifde", "ifdefs", "ifndefs", "ifelse", "elsif", "else if", "elseiff",
    "elif1", "elses", "else_", "endi", "endifs", "endif_", "end", "include1", "includes", "Error", "errors",
    "define", "if(", "if1", "i", "\u{e9}", "if\u{e9}", "!if", "#if", "1", "_",
];

/// Blanks before a `!` or a text.
pub const BLANKS: &[&[u8]] = &[b"", b"", b"", b" ", b"  ", b"\t", b" \t "];

/// Texts that are wrong after some words or after all. None starts with a
/// letter, which would go on with the word.
#[rustfmt::skip]
pub const RUBBISH: &[&[u8]] = &[
    b"", b" ", b"\t", b"#", b" #", b" # c", b"#c", b" @", b"@", b" 1 / 0", b"9x", b"_", b" 'a", b"'", b" x", b"(1)",
    b" $(A", b"$(A)", b" A B", b" a", b" 2", b" 'a'", b" 1 2", b" g.None", b" \xff\0", b"\xe9", b"\r", b" 1\r", b"\x0b1",
    b" !if 1", b" 18446744073709551616", b" ((((((((((((((((((1", b" $(A) == g.P", b" A.b", b" $( A )",
    b" $(A)", b"\t$(A)#", b" $(A) B", b" $()", b" $(A))", b" ${A}", b" $(a)", b" 'a' == a", b" 'a' NE a b", b" 'a' == L'a", b" foo",
    b" 1 | 1", b" 2 | 1", b" 1 || 1 / 0", b" 0 || 1 / 0", b" 1 || 'a'", b" 1 || g.None", b" 1 ||", b" || 1", b" A || B", b"|", b"||1",
];

/// Mostly a text that is right after `!if`, with a value of 0 or 1.
pub fn condition(rng: &mut Prng, names: &Names) -> Vec<u8> {
    let mut text = rng.pick(&[&b" "[..], b" ", b" ", b"\t", b"  "]).to_vec();
    text.extend(match rng.below(40) {
        0..=9 => constant(rng),
        10..=19 => comparison(rng, names),
        20..=31 => joined(rng, names),
        32 | 33 => negation(rng, names),
        34 | 35 => written(names.pick(rng, Kind::Number)),
        36 => formula(rng, names, None, Place::Condition),
        37 => values::any(rng, names, Place::Condition),
        38 => {
            let mut text = joined(rng, names);
            damage(rng, &mut text);
            text
        }
        _ => return rng.pick(RUBBISH).to_vec(),
    });
    text.extend(tail(rng));
    text
}

fn constant(rng: &mut Prng) -> Vec<u8> {
    rng.pick(&["0", "1", "0", "1", "TRUE", "False", "0x1", "(0)", "!0"])
        .into()
}

fn negation(rng: &mut Prng, names: &Names) -> Vec<u8> {
    let inner = formula(rng, names, Some(Kind::Number), Place::Condition);
    [b"NOT (", &inner[..], b")"].concat()
}

/// Truths with operators between them that keep the value 0 or 1. Half of
/// those with bars are in parentheses.
pub fn joined(rng: &mut Prng, names: &Names) -> Vec<u8> {
    let mut text = truth(rng, names);
    let mut bars = false;
    for _ in 0..rng.pick(&[1, 1, 1, 2, 4]) {
        let operator: &[u8] = rng.pick(&[
            &b" AND "[..],
            b" OR ",
            b" XOR ",
            b"&&",
            b" | ",
            b" || ",
            b" || ",
            b"||",
        ]);
        bars |= operator.contains(&b'|');
        text.extend(operator);
        text.extend(truth(rng, names));
    }
    match bars && !Place::Condition.leaves_bars(rng) {
        true => [b"(", &text[..], b")"].concat(),
        false => text,
    }
}

/// Mostly with a value of 0 or 1; some only do where they are skipped.
fn truth(rng: &mut Prng, names: &Names) -> Vec<u8> {
    match rng.below(20) {
        0 => rng.pick(&["1 / 0", "0 - 1", "2", "'a'", "g.None"]).into(),
        1 | 2 => negation(rng, names),
        3..=8 => constant(rng),
        _ => comparison(rng, names),
    }
}

/// Two operands of one kind, compared.
pub fn comparison(rng: &mut Prng, names: &Names) -> Vec<u8> {
    if names.takes_old_spelling(rng) {
        let left = written(names.pick(rng, Kind::Text));
        return bare_words::equality(rng, &left);
    }
    let (operator, _) = rng.pick(&COMPARISONS);
    let kind = rng.pick(&[
        Kind::Number,
        Kind::Number,
        Kind::Number,
        Kind::Text,
        Kind::Wide,
    ]);
    let literal = match kind {
        Kind::Number => rng.pick(&["0", "1", "2", "3", "5", "48", "0x10"]),
        Kind::Text => rng.pick(&["''", "'a'", "\"ab\"", "'b'"]),
        Kind::Wide => rng.pick(&["L''", "L'a'", "L\"ab\""]),
    };
    let left = written(names.pick(rng, kind));
    let right = match rng.below(8) {
        0 | 1 => written(names.pick(rng, kind)),
        2 => definitions::literal(rng, kind),
        _ => literal.into(),
    };
    [&left[..], b" ", operator.as_bytes(), b" ", &right].concat()
}

/// A macro in an expression has its `$( )`, a PCD has not.
pub fn written(name: Vec<u8>) -> Vec<u8> {
    match name.contains(&b'.') {
        true => name,
        false => [b"$(", &name[..], b")"].concat(),
    }
}

/// Mostly a text that is right after `!ifdef`.
pub fn name(rng: &mut Prng, names: &Names) -> Vec<u8> {
    let kind = rng.pick(&[Kind::Number, Kind::Number, Kind::Text, Kind::Wide]);
    let long = rng.pick(&[63, 64, 65, 66]);
    let name = match rng.below(17) {
        0 => rng.pick(&NUMBERS).as_bytes().to_vec(),
        1 => rng.pick(&TEXTS).as_bytes().to_vec(),
        2 => rng.pick(&WIDES).as_bytes().to_vec(),
        3 => macro_name(rng, long),
        4 => b"NOPE".to_vec(),
        5 => [&names.pick(rng, kind)[..], b"A"].concat(),
        _ => names.pick(rng, kind),
    };
    // A PCD is no macro, so mostly only its first run is used.
    let name = match name.iter().position(|&byte| byte == b'.') {
        Some(dot) if !rng.one_in(20) => name[..dot].to_ascii_uppercase(),
        _ => name,
    };
    let name = match name.first() {
        Some(b'_') if !rng.one_in(20) => b"A".to_vec(),
        _ => name,
    };
    let (open, close): (&[u8], &[u8]) = match rng.below(40) {
        0 => rng.pick(&BROKEN_BRACKETS),
        1 => return rng.pick(RUBBISH).to_vec(),
        _ if names.takes_old_spelling(rng) => (b"$(", b")"),
        _ => (b"", b""),
    };
    let blank: &[u8] = rng.pick(&[&b" "[..], b" ", b"\t", b" \t "]);
    [blank, open, &name, close, tail(rng)].concat()
}

/// What can be round a macro's name and is wrong after `!ifdef` in both editions.
#[rustfmt::skip]
const BROKEN_BRACKETS: [(&[u8], &[u8]); 33] = [
    (b"$(", b""), (b"", b")"), (b"$( ", b")"), (b"$(", b" )"), (b"$ (", b")"), (b"$", b""), (b"$", b")"), (b"(", b")"), (b"${", b"}"),
    (b"$(", b"}"), (b"$[", b"]"), (b"$((", b"))"), (b"$(", b"))"), (b"$$(", b")"), (b"$(_", b")"), (b"$(1", b")"), (b"$(a", b")"),
    (b"$(", b"a)"), (b"$(", b".x)"), (b"$(", b")B"), (b"$(", b") B"), (b"$(", b")$(A)"), (b"$(", b")@"), (b"$(", b")\r\r"),
    (b"$(", b"#)"), (b"$(#", b")"), (b"'$(", b")'"), (b"!$(", b")"), (b"$(", b") || $(B)"), (b"'", b"'"), (b"", b" B"), (b"", b" || B"),
    (b"", b".x"),
];

/// Brackets and no name, a broken one, or a good one with broken brackets.
pub fn broken_name(rng: &mut Prng, names: &Names) -> Vec<u8> {
    let (open, close) = rng.pick(&BROKEN_BRACKETS);
    let macro_name = names.pick(rng, Kind::Number).to_ascii_uppercase();
    let name: &[u8] = match rng.below(6) {
        0 => b"",
        1 => rng.pick(&[&b"a"[..], b"_", b"1", b"A.B", b"A B", b"A)"]),
        _ => &macro_name,
    };
    let (open, close) = match rng.below(4) {
        0 => (&b"$("[..], &b")"[..]),
        _ => (open, close),
    };
    [
        rng.pick(&[&b" "[..], b"\t", b""]),
        open,
        name,
        close,
        tail(rng),
    ]
    .concat()
}

/// Mostly a text that is right after `!else` and `!endif`.
pub fn nothing(rng: &mut Prng) -> Vec<u8> {
    match rng.below(60) {
        0 => rng.pick(RUBBISH).to_vec(),
        _ => tail(rng).to_vec(),
    }
}

/// Blanks and a comment, mostly neither.
pub fn tail(rng: &mut Prng) -> &'static [u8] {
    rng.pick(&[
        &b""[..],
        b"",
        b"",
        b"",
        b" ",
        b"\t ",
        b"#",
        b" # c",
        b"# @ ' $( \xff",
        b" \t#\r x",
    ])
}

/// Anything without an LF that does not go on with a word.
pub fn rubbish(rng: &mut Prng) -> Vec<u8> {
    if rng.one_in(2) {
        return rng.pick(RUBBISH).to_vec();
    }
    let len = match rng.below(12) {
        0 => rng.between(900, 1_010),
        _ => rng.below(30),
    };
    let mut text: Vec<u8> = (0..len).map(|_| rng.byte()).collect();
    text.iter_mut()
        .filter(|byte| **byte == b'\n')
        .for_each(|byte| *byte = b'\r');
    if text.first().is_some_and(u8::is_ascii_alphabetic) {
        text[0] = b'@';
    }
    text
}

/// A plain line without an LF whose first word is not `DEFINE`.
pub fn plain(rng: &mut Prng) -> Vec<u8> {
    #[rustfmt::skip]
    let known: &[&[u8]] = &[
        b"", b"x", b"  x", b"\t", b"#", b"# !endif", b"x !if 1", b"if 1", b"endif", b"!include a", b" !error", b"!include9",
        b"\t!error#", b"[Defines]", b"\"!if 1\"", b"\r", b"\r!if 1", b"\x0b!if", b"\xff\0", b"@ ' \" (",
    ];
    match rng.below(10) {
        0 => [rng.pick(&[&b"!include"[..], b" !error"]), &rubbish(rng)[..]].concat(),
        1 => {
            let line = rubbish(rng);
            match oracle::lines::sort(&line) {
                Ok(oracle::lines::Line::Plain) if !shapes::is_one(&line) => line,
                _ => b"x".to_vec(),
            }
        }
        2 | 3 => shapes::nearly(rng),
        _ => rng.pick(known).to_vec(),
    }
}
