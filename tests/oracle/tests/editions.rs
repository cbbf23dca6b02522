//! The two editions beside each other (document 02, order 5), on random and on
//! short texts: what the old one reads is told from the new one alone, and what
//! the new one accepts the old one accepts with the same answer.

mod common;

use common::*;
use oracle::tokens::code;
use oracle::{Edition, Refusal, EDITIONS};
use Edition::{New, Old};

fn settings() -> Vec<u8> {
    table(&[number("A", 1), text("S", "a"), text("g.S", "a")])
}

/// Code, start and length of each token, and the refusal.
type Read = (Vec<(u8, usize, usize)>, Option<Refusal>);

fn read(edition: Edition, expr: &[u8]) -> Read {
    let scan = oracle::scan(expr, edition);
    let token = |token: &oracle::Token| (token.code, token.start, token.len);
    (scan.tokens.iter().map(token).collect(), scan.refusal)
}

/// A text that often has bare words, often where they are taken.
fn any_text(rng: &mut Prng) -> Vec<u8> {
    let words = [
        "a", "b", "_", "L", "foo", "lt", "Eq", "a.1", "L'", "L\"a\"", "LL'a'", "1a", "AND", "TRUE",
        "g.S", "g.N", "NOT",
    ];
    let others = [
        "==",
        "!=",
        "EQ",
        "NE",
        "<",
        "AND",
        "OR",
        "|",
        "?",
        ":",
        "(",
        ")",
        "!",
        "-",
        "'a'",
        "\"b\"",
        "1",
        "0",
        "$(S)",
        "$(N)",
        "@",
        "=",
        "18446744073709551616",
    ];
    let mut text = Vec::new();
    for _ in 0..1 + rng.below(12) {
        match rng.below(5) {
            // Mostly a comparison with a word.
            0..=2 => {
                let left = rng.pick(&["'a'", "$(S)", "g.S", "1 OR 'b'", "('a'", ""]);
                let operator = rng.pick(&["==", "!=", " EQ ", " NE\t", "== ", " != "]);
                let known = if rng.below(3) == 0 { words.len() } else { 7 };
                let word = rng.pick(&words[..known]);
                text.extend([left, operator, word].concat().bytes());
                text.extend(rng.pick(&[" AND ", " OR ", " || ", "", " ? 1 : "]).bytes());
            }
            3 => text.extend(rng.pick(&words).bytes()),
            _ => text.extend(rng.pick(&others).bytes()),
        }
        text.extend(rng.pick(&["", "", " ", "\t", " #"]).bytes());
    }
    text.extend(rng.pick(&["", "1", " 1"]).bytes());
    text
}

/// The old edition's reading told from the new one's alone: while that stops at
/// a bare word, a number as long is put in its place. Gives besides where these
/// words are.
fn read_by_the_new(expr: &[u8]) -> (Read, Vec<(usize, usize)>) {
    let mut text = expr.to_vec();
    let mut bare = Vec::new();
    loop {
        let (mut tokens, refusal) = read(New, &text);
        let is_after = matches!(tokens.last(), Some((code::EQUAL | code::UNEQUAL, ..)));
        let place = refusal.filter(|refusal| refusal.number == 3 && is_after);
        let place = place.map_or(text.len(), Refusal::offset);
        let len = bare_length(&text[place..]);
        if len == 0 {
            for token in &mut tokens {
                if bare.contains(&(token.1, token.2)) {
                    token.0 = code::BARE;
                }
            }
            return ((tokens, refusal), bare);
        }
        text.splice(place..place + len, number_of_length(len));
        bare.push((place, len));
    }
}

/// Length of the run at the front if it has no digit first, and is not what
/// makes a string wide; else 0.
fn bare_length(text: &[u8]) -> usize {
    let is_run = |byte: &&u8| **byte == b'_' || byte.is_ascii_alphanumeric();
    match text {
        [b'0'..=b'9', ..] | [b'L', b'"' | b'\'', ..] => 0,
        _ => text.iter().take_while(is_run).count(),
    }
}

fn number_of_length(len: usize) -> Vec<u8> {
    match len {
        1 => b"1".to_vec(),
        2 => b"10".to_vec(),
        _ => [b"0x", &b"0".repeat(len - 2)[..]].concat(),
    }
}

#[test]
fn both_editions_of_random_texts() {
    let settings = settings();
    let mut rng = Prng(8);
    // By the new edition's refusal, then by the old one's; and those with bare words.
    let mut met = [[0; 13]; 13];
    let mut with_bare = 0;
    for _ in 0..100_000 {
        let text = any_text(&mut rng);
        let shown = text.escape_ascii();
        let (old_read, bare) = read_by_the_new(&text);
        assert_eq!(read(Old, &text), old_read, "{shown}");
        with_bare += usize::from(!bare.is_empty());

        let [new, old] = EDITIONS.map(|edition| oracle::evaluate(&text, &settings, edition));
        let number =
            |answer: &oracle::Answer| usize::from(answer.err().map_or(0, |refusal| refusal.number));
        met[number(&new)][number(&old)] += 1;
        if number(&new) != 3 {
            assert_eq!(old, new, "{shown}");
        }

        // With quotes it is the same expression in the new edition, except for places.
        let mut quoted = text.clone();
        for &(place, len) in bare.iter().rev() {
            quoted.insert(place + len, b'"');
            quoted.insert(place, b'"');
        }
        let moved = |place: usize| {
            let before = bare.iter().filter(|(start, _)| *start < place);
            place + 2 * before.count()
        };
        let expected = old.map(|outcome| (format!("{:?}", outcome.value), outcome.count));
        let expected = expected.map_err(|refusal| (refusal.number, refusal.place.map(moved)));
        let given = oracle::evaluate(&quoted, &settings, New);
        let given = given.map(|outcome| (format!("{:?}", outcome.value), outcome.count));
        let given = given.map_err(|refusal| (refusal.number, refusal.place));
        assert_eq!(given, expected, "{shown}");
    }
    assert!(with_bare > 50_000, "{with_bare}");
    // Where the new edition finds a bad token, the old one may find anything.
    for number in [0, 3, 4, 7, 8, 9, 10] {
        assert!(met[3][number] > 100, "{number}: {met:?}");
    }
    for number in [0, 4, 7, 8, 9, 10] {
        assert!(met[number][number] > 40, "{number}: {met:?}");
    }
}

#[test]
fn both_editions_of_short_texts() {
    // Everything of up to four of these after an operator.
    let pieces = [
        "a", "L", "_", "1", ".", "'", "\"", " ", "==", "EQ", "TRUE", "(", "#", "@",
    ];
    for length in 0..=4u32 {
        for index in 0..pieces.len().pow(length) {
            let place = |place| pieces[index / pieces.len().pow(place) % pieces.len()];
            let text: String = (0..length).map(place).collect();
            for front in ["==", "1 !="] {
                let expr = format!("{front}{text}");
                let (expected, _) = read_by_the_new(expr.as_bytes());
                assert_eq!(read(Old, expr.as_bytes()), expected, "{expr}");
            }
        }
    }
}

#[test]
fn both_editions_of_random_files() {
    let settings = settings();
    let mut rng = Prng(9);
    let mut met = [0; 4];
    for _ in 0..40_000 {
        let mut file = Vec::new();
        for _ in 0..rng.below(4) {
            let condition = [b"!if ", &any_text(&mut rng)[..]].concat();
            let opening: &[u8] = match rng.below(6) {
                0 => &condition,
                1 => b"!if $(S) == a",
                2 => b"!ifdef $(A)",
                3 => b"!ifndef $(S) #",
                4 => b"!if 0",
                _ => b"!ifdef A",
            };
            let branch = rng.pick(&["", "!else\n", "!elif 'b' == b\n", "!elif 1\n", "!else x\n"]);
            let end = rng.pick(&["!endif\n", "!endif\n", "!endif\r\n", "!endif x\n", ""]);
            file.extend([opening, b"\nx\n", branch.as_bytes(), b"y\n", end.as_bytes()].concat());
        }
        let [new, old] = EDITIONS.map(|edition| selected_in(edition, &file, &settings));
        let number = |answer: &Selected| {
            answer
                .as_ref()
                .err()
                .map_or(0, |(refusal, _)| refusal.number)
        };
        match number(&new) {
            3 | 22 => met[if old.is_ok() { 0 } else { 1 }] += 1,
            refusal => {
                assert_eq!(old, new, "{}", file.escape_ascii());
                met[if refusal == 0 { 2 } else { 3 }] += 1;
            }
        }
    }
    assert!(met.iter().all(|&times| times > 1_000), "{met:?}");
}
