//! The parser against the grammar taken literally: every way of splitting a
//! token list is tried, so this is slow and has no cleverness to get wrong.

mod common;

use common::{evaluate, scan, tokens, Prng, OPERATORS};
use oracle::tokens::code;
use oracle::tree::{parse, Node, Tree};
use oracle::Outcome;

/// Every derivation of `codes` at a level, each written with brackets and the
/// tokens by their numbers. The first token's number is `from`.
fn derivations(level: usize, codes: &[u8], from: usize) -> Vec<String> {
    if codes.is_empty() {
        return Vec::new();
    }
    match level {
        1 => unary(codes, from),
        13 => choice(codes, from),
        _ => {
            let mut found = derivations(level - 1, codes, from);
            for at in 1..codes.len() {
                if OPERATORS[level - 2].contains(&codes[at]) {
                    let right = derivations(level - 1, &codes[at + 1..], from + at + 1);
                    if right.is_empty() {
                        continue;
                    }
                    for left in derivations(level, &codes[..at], from) {
                        for right in &right {
                            found.push(format!("[{left} {} {right}]", from + at));
                        }
                    }
                }
            }
            found
        }
    }
}

fn unary(codes: &[u8], from: usize) -> Vec<String> {
    match codes {
        [code::NOT | code::COMPLEMENT | code::PLUS | code::MINUS, rest @ ..] => {
            derivations(1, rest, from + 1)
                .into_iter()
                .map(|inner| format!("[{from} {inner}]"))
                .collect()
        }
        [code::OPEN, inside @ .., code::CLOSE] => derivations(13, inside, from + 1),
        [code::NUMBER..=code::BARE] => vec![format!("#{from}")],
        _ => Vec::new(),
    }
}

fn choice(codes: &[u8], from: usize) -> Vec<String> {
    let mut found = derivations(12, codes, from);
    for question in 1..codes.len() {
        if codes[question] != code::QUESTION {
            continue;
        }
        let tests = derivations(12, &codes[..question], from);
        for colon in question + 2..codes.len() {
            if tests.is_empty() || codes[colon] != code::COLON {
                continue;
            }
            let arms = &codes[question + 1..colon];
            for yes in derivations(13, arms, from + question + 1) {
                for no in derivations(13, &codes[colon + 1..], from + colon + 1) {
                    for test in &tests {
                        let question = from + question;
                        found.push(format!("[{test} {question}? {yes} : {no}]"));
                    }
                }
            }
        }
    }
    found
}

fn written(tree: &Tree, node: usize) -> String {
    match tree.nodes[node] {
        Node::Operand(token) => format!("#{token}"),
        Node::Unary(operator, inner) => format!("[{operator} {}]", written(tree, inner)),
        Node::Binary(operator, left, right) => {
            let (left, right) = (written(tree, left), written(tree, right));
            format!("[{left} {operator} {right}]")
        }
        Node::Choice(question, test, yes, no) => format!(
            "[{} {question}? {} : {}]",
            written(tree, test),
            written(tree, yes),
            written(tree, no)
        ),
    }
}

/// Whether the list has a derivation; fails if the parser sees it otherwise.
fn compare(codes: &[u8]) -> bool {
    let tokens = tokens(codes);
    let parsed: Vec<String> = parse(&tokens)
        .iter()
        .map(|tree| written(tree, tree.root))
        .collect();
    assert_eq!(parsed, derivations(13, codes, 0), "{codes:?}");
    !parsed.is_empty()
}

#[test]
fn all_short_token_lists() {
    let alphabet = [
        code::NUMBER,
        code::OPEN,
        code::CLOSE,
        code::QUESTION,
        code::COLON,
        code::NOT,
        code::MINUS,
        code::TIMES,
        code::OR,
    ];
    let mut good = 0;
    for length in 0..=5u32 {
        for index in 0..alphabet.len().pow(length) {
            let codes: Vec<u8> = (0..length)
                .map(|place| alphabet[index / alphabet.len().pow(place) % alphabet.len()])
                .collect();
            good += usize::from(compare(&codes));
        }
    }
    assert!(good > 100);
}

/// A list with a derivation, of at most about `size` tokens.
fn derived(rng: &mut Prng, size: usize) -> Vec<u8> {
    let half = size / 2;
    match rng.below(if size < 3 { 2 } else { 6 }) {
        0 | 1 => vec![rng.below(7) as u8],
        2 => [vec![rng.pick(&[14, 15, 16, 17])], derived(rng, size - 1)].concat(),
        3 => [vec![10], derived(rng, size - 2), vec![11]].concat(),
        4 => {
            let third = size / 3;
            let test = derived(rng, third);
            let yes = derived(rng, third);
            [test, vec![12], yes, vec![13], derived(rng, third)].concat()
        }
        _ => {
            let left = derived(rng, half);
            let operator = 16 + rng.below(19) as u8;
            [left, vec![operator], derived(rng, half)].concat()
        }
    }
}

#[test]
fn longer_token_lists() {
    let mut rng = Prng(1);
    let (mut good, mut bad) = (0, 0);
    for _ in 0..20_000 {
        let size = 1 + rng.below(16);
        let mut codes = derived(&mut rng, size);
        if rng.below(2) == 0 {
            let at = rng.below(codes.len());
            match rng.below(3) {
                0 => drop(codes.remove(at)),
                1 => codes.insert(at, 10 + rng.below(25) as u8),
                _ => codes[at] = rng.below(35) as u8,
            }
        }
        if codes.len() <= 12 {
            *(if compare(&codes) { &mut good } else { &mut bad }) += 1;
        }
    }
    assert!(good > 5_000 && bad > 3_000, "{good} {bad}");
}

#[test]
fn the_count_stays_below_the_tokens() {
    let words = [
        "0", "1", "2", "3", "(", ")", "?", ":", "!", "~", "+", "-", "*", "<<", "<", "==", "&", "^",
        "AND", "XOR", "OR",
    ];
    let mut rng = Prng(2);
    let mut good = 0;
    for _ in 0..200_000 {
        let length = 1 + rng.below(9);
        let expr: Vec<&str> = (0..length).map(|_| rng.pick(&words)).collect();
        let expr = expr.join(" ");
        if let Ok(Outcome { count, .. }) = evaluate(expr.as_bytes(), &[]) {
            assert!(count < scan(expr.as_bytes()).tokens.len() as u64);
            good += 1;
        }
    }
    assert!(good > 1_000, "{good}");
}
