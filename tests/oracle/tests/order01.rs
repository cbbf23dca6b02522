//! Bars outside parentheses (document 02, order 1): a condition may have them,
//! any other expression is refused as before.

mod common;

use common::*;
use oracle::Value;

const TAKEN: u8 = 4;
const NOT_TAKEN: u8 = 3;

/// Mark and count of a condition, or its refusal. The three words that take a
/// condition have to agree.
fn condition_in(text: &str, table: &[u8]) -> Result<(u8, u64), u8> {
    let answer = |before: &str, word: &str| {
        let line = before.lines().count();
        let file = format!("{before}{word} {text}\n!endif\n");
        match marks_in(file.as_bytes(), table) {
            Ok((marks, count)) => Ok((marks[line], count)),
            Err((number, refused)) => {
                assert_eq!(refused, line + 1, "{text}");
                Err(number)
            }
        }
    };
    let first = answer("", "!if");
    for word in ["!elseif", "!elif"] {
        assert_eq!(answer("!if 0\n", word), first, "{word} {text}");
    }
    first
}

fn condition(text: &str) -> Result<(u8, u64), u8> {
    condition_in(text, &[])
}

/// The refusal of an expression by itself. A field has to give the same, and
/// before it looks at the datum code and the buffer.
fn refusal_alone(text: &str, table: &[u8]) -> Option<u8> {
    let refusal = unplaced(evaluate(text.as_bytes(), table)).err();
    for datum in [0, 5, 255] {
        let written = unplaced(field(text.as_bytes(), table, datum, &mut []));
        assert!(refusal.is_none() || written.err() == refusal, "{text}");
    }
    refusal
}

#[test]
fn the_line_of_the_order_in_each_combination() {
    let file = b"!if $(A) == 1 || $(B) == 1\nx\n!else\ny\n!endif\n";
    let yes = vec![4, 1, 3, 0, 5];
    let no = vec![3, 0, 4, 1, 5];
    let values = [None, Some(0), Some(1), Some(2)];
    for a in values {
        for b in values {
            let named = [("A", a), ("B", b)];
            let records: Vec<_> = named
                .into_iter()
                .filter_map(|(name, value)| value.map(|value| number(name, value)))
                .collect();
            // A true left skips the right with its `==`, so 2 and not 3.
            let expected = match (a, b) {
                (Some(1), _) => (yes.clone(), 2),
                (_, Some(1)) => (yes.clone(), 3),
                _ => (no.clone(), 3),
            };
            assert_eq!(
                marks_in(file, &table(&records)),
                Ok(expected),
                "{a:?} {b:?}"
            );
        }
    }
}

#[test]
fn an_elseif_with_a_bar() {
    for word in ["!elseif", "!elif"] {
        let file = format!("!if 0\nx\n{word} 1 | 0\ny\n!else\nz\n!endif\n");
        assert_eq!(
            marks_in(file.as_bytes(), &[]),
            Ok((vec![3, 0, 4, 1, 3, 0, 5], 1))
        );
        let file = format!("!if 0 | 0\nx\n{word} 0 || 0\ny\n!else\nz\n!endif\n");
        assert_eq!(
            marks_in(file.as_bytes(), &[]),
            Ok((vec![3, 0, 3, 0, 4, 1, 5], 2))
        );
    }
}

#[test]
fn values_that_are_no_condition() {
    // A single bar gives 3 here, a double one 1.
    assert_eq!(condition("2 | 1"), Err(13));
    assert_eq!(condition("2 || 1"), Ok((TAKEN, 1)));
    assert_eq!(condition("0 | 2"), Err(13));
    assert_eq!(condition("0 || 2"), Ok((TAKEN, 1)));
    assert_eq!(condition("1 | 1"), Ok((TAKEN, 1)));
    assert_eq!(condition("0 | 0"), Ok((NOT_TAKEN, 1)));
    assert_eq!(condition("1 | 0 ? 'a' : 'b'"), Err(13));
}

#[test]
fn skipped_right_sides() {
    assert_eq!(condition("1 || 1/0"), Ok((TAKEN, 1)));
    assert_eq!(condition("7 || 5 - 7"), Ok((TAKEN, 1)));
    assert_eq!(condition("0 || 1/0"), Err(12));
    assert_eq!(condition("0 || 5 - 7"), Err(11));
    assert_eq!(condition("1/0 || 1"), Err(12));
    // A single bar skips nothing.
    assert_eq!(condition("1 | 1/0"), Err(12));
    assert_eq!(condition("1 | 5 - 7"), Err(11));
    // The left operand's fault comes first.
    assert_eq!(condition("5 - 7 | 1/0"), Err(11));
    assert_eq!(condition("1/0 | 5 - 7"), Err(12));
}

#[test]
fn kinds_and_names_of_skipped_right_sides() {
    assert_eq!(condition("1 | 'a'"), Err(10));
    assert_eq!(condition("1 || 'a'"), Err(10));
    assert_eq!(condition("L'a' || 1"), Err(10));
    assert_eq!(condition("1 || 'a' == L'a'"), Err(10));
    assert_eq!(condition("1 || 'a' == 'b'"), Ok((TAKEN, 1)));
    assert_eq!(condition("1 || A.B"), Err(9));
    assert_eq!(condition("A.B || 'a'"), Err(9));
    assert_eq!(condition("'a' | A.B"), Err(9));
    // A macro may be missing, and is 0.
    assert_eq!(condition("1 || $(A)"), Ok((TAKEN, 1)));
    assert_eq!(condition("$(A) | $(B)"), Ok((NOT_TAKEN, 1)));
    let table = table(&[text("A.B", "a"), number("A.C", 1)]);
    assert_eq!(condition_in("1 || A.B", &table), Err(10));
    assert_eq!(condition_in("0 || A.C", &table), Ok((TAKEN, 1)));
    assert_eq!(condition_in("A.C | 2", &table), Err(13));
}

#[test]
fn no_derivation_with_bars() {
    for bad in [
        "1 ||",
        "1 |",
        "|| 1",
        "|",
        "||",
        "1 | | 1",
        "1 ||| 1",
        "1 || (1",
        "1) || (1",
        "1 || || 1",
        "1 | * 1",
        "1 ? 1 | : 0",
        "(1 |) 1",
    ] {
        assert_eq!(condition(bad), Err(7), "{bad}");
        assert_eq!(refusal_alone(bad, &[]), Some(7), "{bad}");
    }
}

#[test]
fn earlier_refusals_with_bars() {
    for (text, refusal) in [
        ("1 || @".to_string(), 3),
        ("1 || a".to_string(), 3),
        ("1 | 18446744073709551616".to_string(), 4),
        (format!("{}0", "0|".repeat(100)), 5),
        (format!("1 | {}1{}", "(".repeat(17), ")".repeat(17)), 6),
    ] {
        assert_eq!(condition(&text), Err(refusal), "{text}");
        assert_eq!(refusal_alone(&text, &[]), Some(refusal), "{text}");
    }
    // 200 tokens, and 16 open parentheses, are still allowed.
    let long = format!("+{}1", "0|".repeat(99));
    assert_eq!(condition(&long), Ok((TAKEN, 100)));
    assert_eq!(refusal_alone(&long, &[]), Some(8));
    let deep = format!("0 || {}1 | 0{}", "(".repeat(16), ")".repeat(16));
    assert_eq!(condition(&deep), Ok((TAKEN, 2)));
    assert_eq!(refusal_alone(&deep, &[]), Some(8));
}

#[test]
fn any_other_expression_is_refused_as_before() {
    for text in [
        "$(A) == 1 || $(B) == 1",
        "1 | 0",
        "2 | 1",
        "1 || 1/0",
        "0 || 1/0",
        "1 || (1 | 1)",
        "(1) || (1)",
        "1 ? 1 | 0 : 0",
        "1 ? 0 : 1 || 0",
        "1 || 1 ? 1 : 0",
        "0 AND 1 || 1",
        "-0 | 0",
    ] {
        assert_eq!(refusal_alone(text, &[]), Some(8), "{text}");
    }
    assert_eq!(number_of("(1 || 1/0)"), Ok((1, 1)));
    assert_eq!(number_of("(2 | 1)"), Ok((3, 1)));
    assert_eq!(field(b"(2 | 1)", &[], 2, &mut [0; 1]), Ok(1));
    assert_eq!(number_of("0 OR 1 or 1/0"), Ok((1, 2)));
    // The table's refusal is still the first.
    assert_eq!(refusal_alone("1 | 1", &[0]), Some(1));
}

#[test]
fn elsewhere_8_is_still_before_9_to_12() {
    for (text, later) in [
        ("1 || A.B", 9),
        ("A.B | 'a'", 9),
        ("1 | 'a'", 10),
        ("'a' + 1 || 1", 10),
        ("5 - 7 | 1", 11),
        ("1/0 || 1", 12),
    ] {
        assert_eq!(refusal_alone(text, &[]), Some(8), "{text}");
        assert_eq!(condition(text), Err(later), "{text}");
        let enclosed = format!("({text})");
        assert_eq!(refusal_alone(&enclosed, &[]), Some(later), "{text}");
    }
}

#[test]
fn bars_keep_their_levels() {
    for (text, answer) in [
        // (1 == 1) | 2 is 3, 0 | (1 == 1) is 1.
        ("1 == 1 | 2", Err(13)),
        ("0 | 1 == 1", Ok((TAKEN, 2))),
        // (2 ^ 3) | 0, and (0 | (1 & 2)).
        ("2 ^ 3 | 0", Ok((TAKEN, 2))),
        ("0 | 1 & 2", Ok((NOT_TAKEN, 2))),
        // (1 | 0) && 0, not 1 | (0 && 0).
        ("1 | 0 && 0", Ok((NOT_TAKEN, 2))),
        // 1 || (0 && 0), not (1 || 0) && 0.
        ("1 || 0 && 0", Ok((TAKEN, 1))),
        // 1 || (1 XOR 1), not (1 || 1) XOR 1.
        ("1 || 1 XOR 1", Ok((TAKEN, 1))),
        ("1 XOR 1 || 0", Ok((NOT_TAKEN, 2))),
        // (1 || 1) ? 0 : 1, not 1 || (1 ? 0 : 1).
        ("1 || 1 ? 0 : 1", Ok((NOT_TAKEN, 2))),
        ("!1 || 1", Ok((TAKEN, 2))),
        // `OR` is of the same level: (0 OR 0) || 1, (1 || 0) OR 1/0.
        ("0 OR 0 || 1", Ok((TAKEN, 2))),
        ("1 || 0 OR 1/0", Ok((TAKEN, 2))),
    ] {
        assert_eq!(condition(text), answer, "{text}");
    }
}

#[test]
fn bars_inside_skipped_operands() {
    for (text, answer) in [
        ("0 AND (1 | 1/0)", Ok((NOT_TAKEN, 1))),
        ("0 AND 1 | 1/0", Ok((NOT_TAKEN, 1))),
        ("0 && 1/0 || 1", Ok((TAKEN, 2))),
        // (1 || (1 | 1/0)) || 1/0: both `||` are reached, nothing else.
        ("1 || 1 | 1/0 || 1/0", Ok((TAKEN, 2))),
        ("1 || (0 || 1/0)", Ok((TAKEN, 1))),
        ("1 ? 1 : 1 | 1/0", Ok((TAKEN, 1))),
        ("0 ? 1/0 || 1 : 1", Ok((TAKEN, 1))),
        ("1 ? 0 | 1 : 1/0 | 1", Ok((TAKEN, 2))),
        ("1 || (1 | 'a')", Err(10)),
        ("0 AND 1 | 'a'", Err(10)),
        ("1 ? 1 : 1 | 'a'", Err(10)),
        ("1 || 0 | A.B", Err(9)),
        ("1 ? 1 : A.B || 1", Err(9)),
    ] {
        assert_eq!(condition(text), answer, "{text}");
    }
}

#[test]
fn bars_in_strings_and_comments() {
    assert_eq!(condition("'|' == \"|\""), Ok((TAKEN, 1)));
    assert_eq!(condition("1 # || A.B"), Ok((TAKEN, 0)));
    assert_eq!(condition("0|1#|"), Ok((TAKEN, 1)));
    assert_eq!(refusal_alone("'||' == '|'", &[]), None);
    assert_eq!(refusal_alone("1 # | 1", &[]), None);
}

/// Reading A19: what is meant are the directives that have a condition.
#[test]
fn a19_other_directives_take_no_bars() {
    let table = table(&[number("A", 1), number("B", 1)]);
    let refusal = |file: &str| marks_in(file.as_bytes(), &table).err();
    for line in [
        "!ifdef A || B",
        "!ifdef A | B",
        "!ifdef A||B",
        "!ifdef $(A) || $(B)",
        "!ifdef ||",
        "!ifndef A || B",
        "!ifndef | B",
        // The word still needs its blank.
        "!if|1",
        "!if||",
    ] {
        assert_eq!(refusal(line), Some((22, 1)), "{line}");
    }
    for line in ["!elseif|| 1", "!elif|1", "!else ||", "!else|", "!endif | 1"] {
        let file = format!("!if 0\n{line}\n");
        assert_eq!(refusal(&file), Some((22, 2)), "{line}");
    }
    for line in ["||", "| !if 1", "!include a | b"] {
        assert_eq!(
            marks_in(line.as_bytes(), &table),
            Ok((vec![1], 0)),
            "{line}"
        );
    }
}

#[test]
fn bars_in_unread_directives_are_not_looked_at() {
    assert_eq!(
        marks_in(
            b"!if 0 || 0\n!if | || (\n!elseif||\n!else |\n!endif |\n!ifdef A || B\n!endif\n!endif\n",
            &[]
        ),
        Ok((vec![3, 2, 2, 2, 2, 2, 2, 5], 1))
    );
    for text in [
        " 1 ||",
        "|",
        " 1 || A.B",
        " 0 || 1/0",
        " 1 | 'a'",
        " 2 | 1",
        "|| @",
    ] {
        let file = format!("!if 1 || 0\nx\n!elseif{text}\ny\n!elif{text}\n!else\nz\n!endif\n");
        assert_eq!(
            marks_in(file.as_bytes(), &[]),
            Ok((vec![4, 1, 2, 0, 2, 3, 0, 5], 1)),
            "{text}"
        );
    }
}

#[test]
fn counts_go_on_over_conditions_with_bars() {
    let file =
        b"!if 0 | 0 | 0\r\n!elseif 0 || 0\r\n!elseif 1 || 0 || 0\r\n!endif\r\n!if 1 | 1\r\n!endif";
    assert_eq!(marks_in(file, &[]), Ok((vec![3, 3, 4, 5, 4, 5], 6)));
}

/// Operands with binary operators between them, many of these bars. Now and
/// then an operand is missing.
fn any_text(rng: &mut Prng) -> String {
    let operand = |rng: &mut Prng| {
        rng.pick(&[
            "0",
            "0",
            "1",
            "1",
            "2",
            "$(A)",
            "$(B)",
            "$(S)",
            "g.P",
            "g.Q",
            "'a'",
            "!0",
            "(2 | 1)",
            "(0 || 1)",
            "1/0",
            "5 - 7",
            "1 ? 0 | 1 : 1",
            "",
        ])
    };
    let mut text = operand(rng).to_string();
    for _ in 0..1 + rng.below(4) {
        let operator = rng.pick(&["|", "|", "||", "||", "==", "AND", "OR", "+"]);
        text += &format!(" {operator} {}", operand(rng));
    }
    text
}

/// Parentheses round the whole make bars allowed and change nothing else. So
/// a condition answers as the enclosed expression does by itself.
#[test]
fn a_condition_is_as_the_enclosed_expression() {
    let table = table(&[number("A", 1), text("S", "a"), number("g.P", 3)]);
    let mut rng = Prng(4);
    let mut freed = [0; 14];
    for _ in 0..20_000 {
        let text = any_text(&mut rng);
        let enclosed = format!("({text})");
        let alone = unplaced(evaluate(text.as_bytes(), &table));
        let expected = match alone {
            Err(8) => unplaced(evaluate(enclosed.as_bytes(), &table)),
            other => other,
        }
        .and_then(|outcome| match outcome.value {
            Value::Number(0) => Ok((NOT_TAKEN, outcome.count)),
            Value::Number(1) => Ok((TAKEN, outcome.count)),
            _ => Err(13),
        });
        assert_eq!(condition_in(&text, &table), expected, "{text}");
        if let Ok((_, count)) = expected {
            assert!(count < scan(text.as_bytes()).tokens.len() as u64);
        }
        if alone == Err(8) {
            freed[usize::from(expected.err().unwrap_or(0))] += 1;
        }
    }
    // Accepted, or any of the refusals that come after 8, and never 8 itself.
    for (number, &met) in freed.iter().enumerate() {
        match number {
            1..=8 => assert_eq!(met, 0, "{number}"),
            _ => assert!(met > 100, "{number}: {met}"),
        }
    }
}
