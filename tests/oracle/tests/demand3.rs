//! Demand 3 tried on random pairs of files and tables: what an accepted run
//! does not read makes no difference. Conditions have bars outside parentheses
//! too (document 02, order 1), and both runs are in the same edition (order 5).
//! A DEFINE line that is kept counts as a read directive (order 6): it stays, and
//! no other kept line becomes one; where it is dropped it is a plain line.

mod common;

use common::*;
use oracle::definition::after_define;
use oracle::lines::{lines, sort, Line, Word};
use oracle::tokens::{code, scan};
use oracle::{Edition, EDITIONS};

const NAMES: [&str; 5] = ["A", "B", "C", "g.P", "g.Q"];

/// Texts for unread directives. None starts with a letter, which would go on
/// with the word.
const JUNK: [&str; 10] = [
    "",
    " @",
    " 1 / 0",
    "9x",
    " 'a",
    " $(A) == g.P",
    " $(A) == foo bar",
    " $(a)",
    " 1 || g.P",
    "| 1",
];

fn any_record(rng: &mut Prng, name: &str) -> [u8; 128] {
    match rng.below(6) {
        0 => text(name, rng.pick(&["", "a", "b"])),
        1 => wide(name, rng.pick(&["", "a"])),
        _ => number(name, rng.below(3) as u64),
    }
}

fn any_table(rng: &mut Prng) -> Vec<[u8; 128]> {
    let mut records = Vec::new();
    for name in NAMES {
        if rng.below(4) > 0 {
            records.push(any_record(rng, name));
        }
    }
    records
}

fn any_condition(rng: &mut Prng) -> String {
    let operand = |rng: &mut Prng| rng.pick(&["0", "1", "$(A)", "$(B)", "$(C)", "g.P", "g.Q"]);
    let operator = rng.pick(&["==", "!=", "<", "AND", "OR", "-", "|", "||"]);
    let (left, right) = (operand(rng), operand(rng));
    match rng.below(4) {
        0 => left.to_string(),
        1 => format!("{left} {operator} {right}"),
        // A bare word, which only the old edition takes.
        2 => {
            let left = rng.pick(&[left, "'a'", "'b'"]);
            let operator = rng.pick(&["==", "!=", "EQ", "NE"]);
            format!("{left} {operator} {}", rng.pick(&["a", "b", "A"]))
        }
        _ => format!("!{left} {} {right} == 1 # c", rng.pick(&["OR", "||"])),
    }
}

/// Lines with properly nested groups, so that most runs get to the end.
fn any_lines(rng: &mut Prng, depth: usize, out: &mut Vec<String>) {
    for _ in 0..1 + rng.below(3) {
        if depth == 0 || rng.below(2) == 0 {
            out.push(match rng.below(2) {
                0 => plain(rng).to_string(),
                _ => any_define(rng),
            });
            continue;
        }
        let name = rng.pick(&["A", "$(B)", "C #"]);
        out.push(match rng.below(4) {
            0 => format!("!ifdef {name}"),
            1 => format!("!ifndef {name}"),
            _ => format!("!if {}", any_condition(rng)),
        });
        any_lines(rng, depth - 1, out);
        for _ in 0..rng.below(3) {
            let word = rng.pick(&["!elseif", "!elif"]);
            out.push(format!("{word} {}", any_condition(rng)));
            any_lines(rng, depth - 1, out);
        }
        if rng.below(2) == 0 {
            out.push("!else # c".to_string());
            any_lines(rng, depth - 1, out);
        }
        out.push(" !endif".to_string());
    }
}

/// A plain line without the first word `DEFINE`.
fn plain(rng: &mut Prng) -> &'static str {
    rng.pick(&[
        "",
        "x",
        "  x",
        "!include a",
        " !error",
        "!include9",
        "#",
        "DEFINED A = 1",
        "# DEFINE A = 1",
        "!include DEFINE A = 1",
    ])
}

/// A DEFINE line that sets a macro, if it is kept.
fn any_define(rng: &mut Prng) -> String {
    let name = rng.pick(&["A", "B", "C"]);
    let value = match rng.below(6) {
        0 => rng.pick(&["'a'", "'b'", "L'a'"]).to_string(),
        1 => format!("({})", any_condition(rng)),
        2 => rng.pick(&["$(A)", "$(B)", "$(C)", "g.P"]).to_string(),
        _ => rng.below(2).to_string(),
    };
    format!("{}DEFINE {name} = {value}", rng.pick(&["", " "]))
}

/// A line that is dropped: plain, and DEFINE or not.
fn any_dropped(rng: &mut Prng) -> String {
    match rng.below(3) {
        0 => plain(rng).to_string(),
        1 => any_define(rng),
        _ => format!("DEFINE{}", rng.pick(&JUNK)),
    }
}

fn any_end(rng: &mut Prng) -> &'static str {
    rng.pick(&["\n", "\r\n"])
}

fn string(bytes: &[u8]) -> String {
    String::from_utf8(bytes.to_vec()).unwrap()
}

/// The macros and PCDs of an expression. A bare word is none.
fn named_in_expression(expr: &[u8], edition: Edition) -> Vec<String> {
    let name = |token: &oracle::Token| {
        let bytes = &expr[token.start..token.start + token.len];
        match token.code {
            code::MACRO => Some(string(&bytes[2..bytes.len() - 1])),
            code::PCD => Some(string(bytes)),
            _ => None,
        }
    };
    scan(expr, edition).tokens.iter().filter_map(name).collect()
}

/// The names that a read directive depends on.
fn named(word: Word, argument: &[u8], edition: Edition) -> Vec<String> {
    match word {
        Word::If | Word::Elseif => named_in_expression(argument, edition),
        Word::Ifdef | Word::Ifndef => {
            let name = argument.iter().filter(|byte| byte.is_ascii_uppercase());
            vec![string(&name.copied().collect::<Vec<u8>>())]
        }
        Word::Else | Word::Endif => Vec::new(),
    }
}

fn is_test(word: Word) -> bool {
    matches!(word, Word::Ifdef | Word::Ifndef)
}

#[test]
fn unread_text_makes_no_difference() {
    let mut rng = Prng(3);
    let (mut accepted, mut with_bars, mut bare, mut bracketed) = ([0; 2], 0, 0, 0);
    let (mut obeyed, mut dropped) = (0, [0; 2]);
    for turn in 0..40_000 {
        let edition = EDITIONS[turn % 2];
        let mut written = Vec::new();
        any_lines(&mut rng, 3, &mut written);
        let file: String = written
            .iter()
            .map(|line| format!("{line}{}", any_end(&mut rng)))
            .collect();
        let first_table = any_table(&mut rng);
        let first = selected_in(edition, file.as_bytes(), &first_table.concat());
        let Ok((marks, _)) = &first else { continue };
        accepted[turn % 2] += usize::from(marks.contains(&2));

        let mut fixed = Vec::new();
        let mut second = Vec::new();
        for (index, line) in lines(file.as_bytes()).enumerate() {
            match sort(line).unwrap() {
                Line::Plain if marks[index] == 0 => {
                    let other = any_dropped(&mut rng);
                    // From DEFINE to another line, and the other way round.
                    let is_define = after_define(line).is_some();
                    if is_define != after_define(other.as_bytes()).is_some() {
                        dropped[usize::from(is_define)] += 1;
                    }
                    second.extend(other.bytes());
                }
                Line::Plain if marks[index] == 6 => {
                    obeyed += 1;
                    let equals = line.iter().position(|&byte| byte == b'=').unwrap();
                    fixed.extend(named_in_expression(&line[equals + 1..], edition));
                    second.extend(line);
                }
                Line::Plain => second.extend(plain(&mut rng).bytes()),
                Line::Directive { word, .. } if marks[index] == 2 => {
                    let spelled = match word {
                        Word::If => "!if",
                        Word::Ifdef => "!ifdef",
                        Word::Ifndef => "!ifndef",
                        Word::Elseif => rng.pick(&["!elseif", "!elif"]),
                        Word::Else => "!else",
                        Word::Endif => "!endif",
                    };
                    second.extend(spelled.bytes().chain(rng.pick(&JUNK).bytes()));
                }
                Line::Directive { word, argument } => {
                    with_bars += usize::from(argument.contains(&b'|'));
                    let read = scan(argument, edition).tokens;
                    bare += usize::from(read.iter().any(|token| token.code == code::BARE));
                    bracketed += usize::from(is_test(word) && argument.contains(&b'$'));
                    fixed.extend(named(word, argument, edition));
                    second.extend(line);
                }
            }
            second.extend(any_end(&mut rng).bytes());
        }
        let mut second_table = any_table(&mut rng);
        let is_fixed = |record: &[u8; 128]| {
            let name = record[..64].split(|&byte| byte == 0).next().unwrap();
            fixed.iter().any(|fixed| fixed.as_bytes() == name)
        };
        second_table.retain(|record| !is_fixed(record));
        second_table.extend(first_table.iter().filter(|record| is_fixed(record)));
        let second_table = table(&second_table);
        let second = selected_in(edition, &second, &second_table);
        assert_eq!(second, first, "{file}");
    }
    let met = [accepted[0], accepted[1], with_bars, bare, bracketed];
    assert!(met.iter().all(|&times| times > 1_000), "{met:?}");
    let met = [obeyed, dropped[0], dropped[1]];
    assert!(met.iter().all(|&times| times > 1_000), "{met:?}");
}
