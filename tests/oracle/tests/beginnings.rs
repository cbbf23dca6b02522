//! Good beginnings against the grammar taken literally: Earley's method holds
//! every way in which the tokens so far can be part of an expression, so a
//! token goes astray exactly if no way is left after it.

mod common;

use common::{tokens, Prng, OPERATORS};
use oracle::beginning::first_astray;
use oracle::tokens::code;
use oracle::tree::parse;

#[derive(Clone, Copy, Debug, PartialEq, Eq)]
enum Symbol {
    /// One of the levels of document 01.
    Level(usize),
    Primary,
    /// A token with one of these codes.
    Token(&'static [u8]),
}

use Symbol::{Level, Primary};

type Rule = (Symbol, Vec<Symbol>);

fn rules() -> Vec<Rule> {
    let token = |codes| Symbol::Token(codes);
    let mut rules = vec![
        (Primary, vec![token(&[0, 1, 2, 3, 4, 5, 6])]),
        (
            Primary,
            vec![token(&[code::OPEN]), Level(13), token(&[code::CLOSE])],
        ),
        (Level(1), vec![Primary]),
        (
            Level(1),
            vec![
                token(&[code::NOT, code::COMPLEMENT, code::PLUS, code::MINUS]),
                Level(1),
            ],
        ),
        (Level(13), vec![Level(12)]),
        (
            Level(13),
            vec![
                Level(12),
                token(&[code::QUESTION]),
                Level(13),
                token(&[code::COLON]),
                Level(13),
            ],
        ),
    ];
    for level in 2..=12 {
        let operators = token(OPERATORS[level - 2]);
        rules.push((Level(level), vec![Level(level - 1)]));
        rules.push((
            Level(level),
            vec![Level(level), operators, Level(level - 1)],
        ));
    }
    rules
}

/// A rule, how much of it is there, and from which token on.
type Item = (usize, usize, usize);

/// Adds all that follows from the items of the last set without a token.
fn complete(rules: &[Rule], sets: &mut [Vec<Item>]) {
    let here = sets.len() - 1;
    let mut next = 0;
    while let Some(&(rule, done, from)) = sets[here].get(next) {
        next += 1;
        let (whole, parts) = &rules[rule];
        let found: Vec<Item> = match parts.get(done) {
            Some(Symbol::Token(_)) => Vec::new(),
            Some(wanted) => (0..rules.len())
                .filter(|&rule| rules[rule].0 == *wanted)
                .map(|rule| (rule, 0, here))
                .collect(),
            None => sets[from]
                .iter()
                .filter(|(rule, done, _)| rules[*rule].1.get(*done) == Some(whole))
                .map(|&(rule, done, from)| (rule, done + 1, from))
                .collect(),
        };
        for item in found {
            if !sets[here].contains(&item) {
                sets[here].push(item);
            }
        }
    }
}

/// The first token after which no way is left, and whether the whole list is
/// an expression.
fn read(rules: &[Rule], codes: &[u8]) -> (Option<usize>, bool) {
    let start = |rule: &usize| rules[*rule].0 == Level(13);
    let first = (0..rules.len()).filter(start).map(|rule| (rule, 0, 0));
    let mut sets: Vec<Vec<Item>> = vec![first.collect()];
    complete(rules, &mut sets);
    for (place, code) in codes.iter().enumerate() {
        let moved = |&(rule, done, from): &Item| match rules[rule].1.get(done) {
            Some(Symbol::Token(codes)) => codes.contains(code).then_some((rule, done + 1, from)),
            _ => None,
        };
        let next: Vec<Item> = sets[place].iter().filter_map(moved).collect();
        if next.is_empty() {
            return (Some(place), false);
        }
        sets.push(next);
        complete(rules, &mut sets);
    }
    let whole = |&(rule, done, from): &Item| {
        rules[rule].0 == Level(13) && done == rules[rule].1.len() && from == 0
    };
    (None, sets[codes.len()].iter().any(whole))
}

/// Checks one list, and gives the first token astray.
fn compare(rules: &[Rule], codes: &[u8]) -> Option<usize> {
    let tokens = tokens(codes);
    let (astray, derives) = read(rules, codes);
    assert_eq!(first_astray(&tokens), astray, "{codes:?}");
    assert_eq!(parse(&tokens).is_some(), derives, "{codes:?}");
    astray
}

#[test]
fn all_short_token_lists() {
    let alphabet = [
        code::NUMBER,
        code::OPEN,
        code::CLOSE,
        code::QUESTION,
        code::COLON,
        code::NOT,
        code::MINUS,
        code::TIMES,
    ];
    let rules = rules();
    // Only what follows a good beginning is a new list.
    let mut good = vec![Vec::new()];
    for length in 0..6 {
        let mut longer = Vec::new();
        for list in &good {
            for code in alphabet {
                let list = [&list[..], &[code]].concat();
                match compare(&rules, &list) {
                    None => longer.push(list),
                    Some(astray) => assert_eq!(astray, length, "{list:?}"),
                }
            }
        }
        good = longer;
    }
    assert!(good.len() > 1_000, "{}", good.len());
}

#[test]
fn every_two_codes_after_good_beginnings() {
    let codes: Vec<u8> = (0..=6).chain(10..=35).collect();
    let rules = rules();
    for before in [&[][..], &[0], &[10], &[10, 0], &[0, 12], &[0, 12, 0, 13]] {
        for &first in &codes {
            for &second in &codes {
                compare(&rules, &[before, &[first, second]].concat());
            }
        }
    }
}

/// A list that mostly goes on well.
fn list(rng: &mut Prng, length: usize) -> Vec<u8> {
    let mut codes = Vec::new();
    let mut operand = true;
    while codes.len() < length {
        codes.push(match (operand, rng.below(6)) {
            (true, 0..=3) => rng.below(7) as u8,
            (true, 4) => code::OPEN,
            (true, _) => rng.pick(&[code::NOT, code::COMPLEMENT, code::PLUS, code::MINUS]),
            (false, 0 | 1) => rng.pick(&[code::CLOSE, code::COLON, code::QUESTION]),
            _ => code::PLUS + rng.below(20) as u8,
        });
        operand = !matches!(codes.last(), Some(0..=6 | &code::CLOSE));
    }
    codes
}

#[test]
fn longer_token_lists() {
    let rules = rules();
    let mut rng = Prng(5);
    let mut met = [0; 2];
    for _ in 0..3_000 {
        let length = 1 + rng.below(24);
        let mut codes = list(&mut rng, length);
        if rng.below(3) == 0 {
            let at = rng.below(codes.len());
            codes[at] = rng.pick(&[0, 10, 11, 12, 13, 14, 17, 18]);
        }
        met[usize::from(compare(&rules, &codes).is_some_and(|place| place > 2))] += 1;
    }
    assert!(met[0] > 500 && met[1] > 500, "{met:?}");
}
