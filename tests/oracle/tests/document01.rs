//! The vectors that document 01 names, and the sentences around them.

mod common;

use common::*;
use oracle::table::CONTENT;
use oracle::tokens::code;
use oracle::{is_well_formed, lookup, Refusal, Setting, Value};

#[test]
fn small_ones_to_prove() {
    assert_eq!(number_of("1 + 2 * 3"), Ok((7, 2)));
    assert_eq!(value_of("10 - 4 - 3"), Ok(3));
    assert_eq!(value_of("2 == 2 == 2"), Ok(0));
    assert_eq!(value_of("6 & 3 == 3"), Ok(0));
    assert_eq!(value_of("NOT 0 == 0"), Ok(0));
    assert_eq!(number_of("0 AND 1 / 0"), Ok((0, 1)));
    assert_eq!(number_of("0 AND \"a\""), Err(10));
    assert_eq!(number_of("1 ? 2 : 1 / 0"), Ok((2, 1)));
    assert_eq!(number_of("1 | 2"), Err(8));
    assert_eq!(value_of("(1 | 2)"), Ok(3));
    assert_eq!(number_of("1 << 64"), Err(11));
    assert_eq!(value_of("\"zero\" < \"three\""), Ok(0));
    assert_eq!(value_of("\"thirty\" < \"thirty1\""), Ok(1));
}

#[test]
fn small_ones_to_run() {
    assert_eq!(value_of("1 << 63"), Ok(1 << 63));
    assert_eq!(value_of("18446744073709551615"), Ok(u64::MAX));
    assert_eq!(number_of("18446744073709551616"), Err(4));
    assert_eq!(number_of("007"), Err(3));
    assert_eq!(number_of("0x"), Err(3));
    assert_eq!(number_of("L\"a\" == \"a\""), Err(10));
    assert_eq!(value_of("$(NOPE) == 0"), Ok(1));
    assert_eq!(number_of(""), Err(7));
    assert_eq!(marks_of(""), Ok((vec![], 0)));
}

#[test]
fn sixteen_and_seventeen_parentheses() {
    let nested = |depth| format!("{}1{}", "(".repeat(depth), ")".repeat(depth));
    assert_eq!(number_of(&nested(16)), Ok((1, 0)));
    assert_eq!(number_of(&nested(17)), Err(6));
}

#[test]
fn two_hundred_tokens_and_one_more() {
    // 199 signs and a number are 200 tokens.
    let signs = |count| format!("{}0", "+".repeat(count));
    assert_eq!(number_of(&signs(199)), Ok((0, 199)));
    assert_eq!(number_of(&signs(200)), Err(5));
    assert_eq!(number_of(&format!("{} \t", signs(199))), Ok((0, 199)));
    assert_eq!(number_of(&format!("{}#@", signs(199))), Ok((0, 199)));
    // Even what would be 3 or 4 before is 5 there.
    assert_eq!(number_of(&format!("{} @", signs(199))), Err(5));
    assert_eq!(
        number_of(&format!("{} 99999999999999999999", signs(199))),
        Err(5)
    );
}

#[test]
fn a_record_of_56_and_57_bytes() {
    let mut record = text("A", &"x".repeat(56));
    assert!(is_well_formed(&record));
    record[65] = 57;
    assert!(!is_well_formed(&record));
    // With a next record there would be bytes to read, and it is still wrong.
    assert!(!is_well_formed(&[record, text("B", "")].concat()));
}

#[test]
fn whole_case() {
    let file = b"!if $(FOO) == 2\nA\n!elseif 1 / 0\nB\n!else\nC\n!endif\nD";
    let with = |value| table(&[number("FOO", value)]);
    assert_eq!(
        marks_in(file, &with(2)),
        Ok((vec![4, 1, 2, 0, 3, 0, 5, 1], 1))
    );
    assert_eq!(marks_in(file, &with(3)), Err((12, 3)));
}

#[test]
fn the_window_that_is_never_true() {
    for week in 0..60 {
        let table = table(&[number("WEEK", week)]);
        assert_eq!(
            number_in("$(WEEK) GE 48 AND $(WEEK) LE 5", &table).map(|(value, _)| value),
            Ok(0)
        );
    }
}

#[test]
fn token_codes_places_and_values() {
    let all = "0x1F TRUE \"a#\" L'b' $(A_1) g.P ( ) ? : ! ~ + - * / % << >> < <= > >= \
               == != & ^ | && XOR || NOT not LT LE GT GE EQ NE AND and xor OR or #";
    let scan = scan(all.as_bytes());
    assert_eq!(scan.refusal, None);
    let codes: Vec<u8> = scan.tokens.iter().map(|token| token.code).collect();
    let expected: Vec<u8> = (0..6)
        .chain(10..35)
        .chain([14, 14, 23, 24, 25, 26, 27, 28, 32, 32, 33, 35, 35])
        .collect();
    assert_eq!(codes, expected);
    let spelled: Vec<&str> = scan
        .tokens
        .iter()
        .map(|token| &all[token.start..token.start + token.len])
        .collect();
    let words: Vec<&str> = all.split(' ').filter(|word| !word.is_empty()).collect();
    assert_eq!(spelled, words[..words.len() - 1]);
    let values: Vec<u64> = scan.tokens.iter().map(|token| token.value).collect();
    assert_eq!(values[..2], [31, 1]);
    assert!(values[2..].iter().all(|&value| value == 0));
}

#[test]
fn runs() {
    let one = |expr: &str| {
        let scan = scan(expr.as_bytes());
        match (scan.refusal, scan.tokens.as_slice()) {
            (None, [token]) if token.len == expr.len() => Ok((token.code, token.value)),
            (refusal, _) => Err(refusal.map(|refusal| refusal.number)),
        }
    };
    assert_eq!(one("0"), Ok((code::NUMBER, 0)));
    assert_eq!(one("0XaF"), Ok((code::NUMBER, 0xaf)));
    assert_eq!(one("0x00000000000000000001"), Ok((code::NUMBER, 1)));
    assert_eq!(one("0xFFFFFFFFFFFFFFFF"), Ok((code::NUMBER, u64::MAX)));
    assert_eq!(one("0x10000000000000000"), Err(Some(4)));
    assert_eq!(one("99999999999999999999x"), Err(Some(3)));
    for bad in ["00", "01", "0X", "0xg", "0b1", "1a", "1_", "0_", "12L"] {
        assert_eq!(one(bad), Err(Some(3)), "{bad}");
    }
    for (truth, value) in [("TRUE", 1), ("True", 1), ("true", 1)] {
        assert_eq!(one(truth), Ok((code::TRUTH, value)));
    }
    for (truth, value) in [("FALSE", 0), ("False", 0), ("false", 0)] {
        assert_eq!(one(truth), Ok((code::TRUTH, value)));
    }
    for bad in [
        "tRUE", "Not", "And", "lt", "eq", "Xor", "Or", "L", "LL", "A", "_", "IN",
    ] {
        assert_eq!(one(bad), Err(Some(3)), "{bad}");
    }
    for pcd in ["a.b", "_._", "AND.x", "TRUE.y1", "L.L", "a1._2", "NOT.not"] {
        assert_eq!(one(pcd), Ok((code::PCD, 0)), "{pcd}");
    }
    for bad in ["a.", "a.1", "a. b", "a .b", "foo.\"x\""] {
        assert_eq!(one(bad), Err(Some(3)), "{bad}");
    }
    assert_eq!(one("$(A)"), Ok((code::MACRO, 0)));
    for bad in [
        "$", "$(", "$()", "$(A", "$( A)", "$(A )", "$(a)", "$(1)", "$(_A)", "$(Ab)", "$A",
    ] {
        assert_eq!(one(bad), Err(Some(3)), "{bad}");
    }
}

#[test]
fn strings() {
    let whole = |expr: &'static [u8]| evaluate(expr, &[]).map(|outcome| outcome.value);
    assert_eq!(whole(b"\"a'#\\\""), Ok(Value::Text(b"a'#\\")));
    assert_eq!(whole(b"'a\"b'"), Ok(Value::Text(b"a\"b")));
    assert_eq!(whole(b"L\"\x00\xff\t\""), Ok(Value::Wide(b"\x00\xff\t")));
    assert_eq!(whole(b"L''"), Ok(Value::Wide(b"")));
    for bad in [
        &b"\"a"[..],
        b"'a\"",
        b"L\"",
        b"\"a\rb\"",
        b"'a\nb'",
        b"L \"a\"",
    ] {
        assert_eq!(refusal_of(bad), Some(3));
    }
    // A word other than `L` before a quote keeps its meaning.
    assert_eq!(value_of("'a'LE'b'"), Ok(1));
}

#[test]
fn leftmost_of_three_four_five() {
    assert_eq!(number_of("99999999999999999999 @"), Err(4));
    assert_eq!(number_of("@ 99999999999999999999"), Err(3));
    assert_eq!(number_of("1 # @ 99999999999999999999"), Ok((1, 0)));
}

#[test]
fn order_of_refusals_in_an_expression() {
    // One expression that has every fault, mended from the front.
    let long = " ".repeat(1_025);
    assert_eq!(
        evaluate(long.as_bytes(), &[1]).err(),
        Some(Refusal::nowhere(1))
    );
    assert_eq!(number_of(&long), Err(2));
    assert_eq!(number_of(&" ".repeat(1_024)), Err(7));
    let deep = "(".repeat(17);
    assert_eq!(number_of(&format!("{deep} 1 | a.b + 'x' @")), Err(3));
    assert_eq!(number_of(&format!("{deep} 1 | a.b + 'x'")), Err(6));
    assert_eq!(number_of("( 1 | a.b + 'x'"), Err(7));
    assert_eq!(number_of("1 / 0 | a.b + 'x'"), Err(8));
    assert_eq!(number_of("1 / 0 + a.b + 'x'"), Err(9));
    assert_eq!(number_of("1 / 0 + 'x'"), Err(10));
    assert_eq!(number_of("1 / 0 + (0 - 1)"), Err(12));
    assert_eq!(number_of("(0 - 1) + 1 / 0"), Err(11));
}

#[test]
fn precedence_of_each_level() {
    for (expr, value) in [
        ("-0 * 3", 0),
        ("~0 / 2", u64::MAX / 2),
        ("!1 + 1", 1),
        ("! ! 7", 1),
        ("- - 0", 0),
        ("2 + 3 % 2", 3),
        ("7 / 2 * 2", 6),
        ("7 - 2 + 1", 6),
        ("1 + 1 << 2", 8),
        ("16 >> 2 >> 1", 2),
        ("1 << 1 < 3", 1),
        ("3 > 2 > 0", 1),
        ("3 > 2 == 1", 1),
        ("1 == 0 LT 1", 1),
        ("1 & 2 != 2", 0),
        ("3 ^ 1 & 1", 2),
        ("(4 | 1 ^ 1)", 4),
        ("(1 AND 0 | 2)", 1),
        ("1 XOR 1 AND 0", 1),
        ("1 OR 1 XOR 1", 1),
        ("1 XOR 1 XOR 1", 1),
        ("0 OR 1 ? 5 : 6", 5),
        ("0 ? 1 : 0 ? 2 : 3", 3),
        ("1 ? 0 ? 1 : 2 : 3", 2),
        ("(0 || 3)", 1),
        ("5 && 6", 1),
        ("5 xor 6", 0),
    ] {
        assert_eq!(value_of(expr), Ok(value), "{expr}");
    }
}

#[test]
fn no_derivation() {
    for bad in [
        "#",
        "  ",
        "()",
        "1 2",
        "1 +",
        "* 1",
        "(1",
        "1)",
        "1 ? 2",
        "1 ? : 2",
        "1 : 2",
        "1 ? 2 : ",
        "NOT",
        "1 NOT 2",
        "? :",
        "'a' 'b'",
        "1 ( 2 )",
        "1 ? 2 : 3 : 4",
        "1 ! 2",
        "1 ~ 2",
    ] {
        assert_eq!(number_of(bad), Err(7), "{bad}");
    }
}

#[test]
fn bars_need_parentheses_anywhere() {
    assert_eq!(number_of("1 || 2"), Err(8));
    assert_eq!(number_of("(1) | (2)"), Err(8));
    assert_eq!(number_of("0 ? 1 | 2 : 3"), Err(8));
    assert_eq!(value_of("1 + (0 ? 1 : 2 | 4)"), Ok(7));
    assert_eq!(value_of("((1) || (2))"), Ok(1));
    assert_eq!(value_of("1 OR 2"), Ok(1));
    assert_eq!(value_of("0 or 0"), Ok(0));
}

#[test]
fn ranges() {
    let max = u64::MAX;
    for (expr, answer) in [
        ("5 - 7".to_string(), Err(11)),
        ("-0".to_string(), Ok(0)),
        ("-1".to_string(), Err(11)),
        ("+7".to_string(), Ok(7)),
        ("~0".to_string(), Ok(max)),
        (format!("~{max}"), Ok(0)),
        (format!("{max} + 1"), Err(11)),
        (format!("{max} + 0"), Ok(max)),
        (format!("{max} * 1"), Ok(max)),
        ("4294967296 * 4294967296".to_string(), Err(11)),
        ("4294967295 * 4294967297".to_string(), Ok(max)),
        ("0 << 18446744073709551615".to_string(), Ok(0)),
        ("3 << 62".to_string(), Ok(3 << 62)),
        ("3 << 63".to_string(), Err(11)),
        ("1 << 4294967296".to_string(), Err(11)),
        (format!("{max} >> 63"), Ok(1)),
        (format!("{max} >> 64"), Ok(0)),
        (format!("{max} >> {max}"), Ok(0)),
        ("1 / 0".to_string(), Err(12)),
        ("1 % 0".to_string(), Err(12)),
        (format!("{max} % 10"), Ok(5)),
    ] {
        assert_eq!(value_of(&expr), answer, "{expr}");
    }
}

#[test]
fn kinds_of_every_operator() {
    for operator in [
        "*", "/", "%", "+", "-", "<<", ">>", "&", "^", "|", "&&", "AND", "XOR", "OR",
    ] {
        assert_eq!(number_of(&format!("(1 {operator} 'a')")), Err(10));
        assert_eq!(number_of(&format!("('a' {operator} 1)")), Err(10));
        assert_eq!(number_of(&format!("('a' {operator} 'a')")), Err(10));
    }
    for operator in ["!", "NOT", "~", "+", "-"] {
        assert_eq!(number_of(&format!("{operator} 'a'")), Err(10));
    }
    for operator in [
        "<", "<=", ">", ">=", "==", "!=", "LT", "LE", "GT", "GE", "EQ", "NE",
    ] {
        assert_eq!(number_of(&format!("'a' {operator} 1")), Err(10));
        assert_eq!(number_of(&format!("'a' {operator} L'a'")), Err(10));
        assert!(number_of(&format!("'a' {operator} \"a\"")).is_ok());
        assert!(number_of(&format!("L'a' {operator} L\"a\"")).is_ok());
    }
    assert_eq!(number_of("'a' ? 1 : 2"), Err(10));
    assert_eq!(number_of("1 ? 1 : 'a'"), Err(10));
    assert_eq!(number_of("1 ? L'a' : 'a'"), Err(10));
    assert_eq!(number_of("1 ? 2 : 0 ? 1 : 'a'"), Err(10));
    assert_eq!(number_of("0 AND nope.nope"), Err(9));
    assert_eq!(number_of("1 ? 1 : nope.nope"), Err(9));
    assert_eq!(number_of("(1 || nope.nope)"), Err(9));
}

#[test]
fn comparisons_of_strings() {
    for (expr, value) in [
        ("'' < 'a'", 1),
        ("'' == ''", 1),
        ("'ab' > 'a'", 1),
        ("'b' > 'ab'", 1),
        ("'\u{7f}' < '\u{80}'", 1),
        ("L'a' <= L'a'", 1),
        ("'a' != 'b'", 1),
        ("'a' GE 'b'", 0),
    ] {
        assert_eq!(value_of(expr), Ok(value), "{expr}");
    }
}

#[test]
fn counts() {
    for (expr, count) in [
        ("1", 0),
        ("((1))", 0),
        ("!!1", 2),
        ("1 AND 1 AND 1", 2),
        ("0 AND 1 AND 1", 2),
        ("0 AND (1 AND 1)", 1),
        ("1 XOR 1 + 1", 2),
        ("1 + 1 ? 2 + 2 : 3 + 3 + 3", 3),
        ("0 ? 2 + 2 : 3 + 3 + 3", 3),
        ("0 ? 1 : 0 ? 2 : 3", 2),
        ("'a' == 'a'", 1),
    ] {
        assert_eq!(number_of(expr).map(|(_, count)| count), Ok(count), "{expr}");
    }
}

#[test]
fn a_string_value_is_the_callers_memory() {
    let table = table(&[text("A", "abc"), wide("g.P", "w")]);
    let expr = b"  L'xyz'";
    let place = |expr: &[u8], whole: &[u8]| match evaluate(expr, &table).unwrap().value {
        Value::Text(part) | Value::Wide(part) => {
            (part.as_ptr() as usize - whole.as_ptr() as usize, part.len())
        }
        Value::Number(_) => panic!("a string was expected"),
    };
    assert_eq!(place(expr, expr), (4, 3));
    assert_eq!(place(b"$(A)", &table), (CONTENT, 3));
    assert_eq!(place(b"0 ? L'' : g.P", &table), (128 + CONTENT, 1));
}

#[test]
fn values_from_the_table() {
    let table = table(&[number("A", 5), number("g.P", u64::MAX), text("S", "s")]);
    assert_eq!(number_in("$(A) + 1", &table), Ok((6, 1)));
    assert_eq!(number_in("g.P", &table), Ok((u64::MAX, 0)));
    assert_eq!(number_in("$(S) == 's'", &table), Ok((1, 1)));
    assert_eq!(number_in("$(B)", &table), Ok((0, 0)));
    assert_eq!(number_in("g.Q", &table), Err(9));
    assert_eq!(number_in("$(S) + 1", &table), Err(10));
}

#[test]
fn table_rules() {
    assert!(is_well_formed(&[]));
    let good = number("A", 7);
    assert!(is_well_formed(&good));
    assert!(!is_well_formed(&good[..127]));
    assert!(!is_well_formed(&[&good[..], &[0]].concat()));
    assert!(!is_well_formed(&[0; 128]));

    // Each byte is changed by itself; only the content may vary freely.
    for place in 0..128 {
        let mut bad = good;
        bad[place] ^= 0x80;
        assert_eq!(is_well_formed(&bad), (72..80).contains(&place), "{place}");
    }
    for kind in 0..=255 {
        for length in 0..=255 {
            let mut record = record(b"A", kind, &[]);
            record[65] = length;
            let expected = match kind {
                0 => length == 8,
                1 | 2 => length <= 56,
                _ => false,
            };
            assert_eq!(is_well_formed(&record), expected, "{kind} {length}");
        }
    }
    assert!(is_well_formed(
        &[text("A", ""), text("AA", ""), text("B", "")].concat()
    ));
    assert!(!is_well_formed(&[text("A", ""), text("A", "x")].concat()));
    assert!(!is_well_formed(&[text("B", ""), text("A", "")].concat()));
}

#[test]
fn table_names() {
    for good in ["A", "Z9_", "a.b", "_._", "A.B", "a_1.c2"] {
        assert!(is_well_formed(&text(good, "")), "{good}");
    }
    for bad in [
        "", "a", "_", "1", "_A", "Aa", "A.", ".A", "a.1", "1.a", "a.b.c", "a..b", "A B", "$(A)",
    ] {
        assert!(!is_well_formed(&text(bad, "")), "{bad}");
    }
    assert!(is_well_formed(&text(&"A".repeat(64), "")));
    assert!(is_well_formed(&text(&format!("a.{}", "b".repeat(62)), "")));
    assert!(!is_well_formed(&record(b"A\0B", 1, b"")));
    assert!(!is_well_formed(&record(b"\xc9.a", 1, b"")));
}

#[test]
fn table_size() {
    let many = |count| -> Vec<u8> {
        (0..count)
            .flat_map(|index| text(&format!("A{index:03}"), ""))
            .collect()
    };
    assert!(is_well_formed(&many(512)));
    assert!(!is_well_formed(&many(513)));
}

#[test]
fn lookups() {
    let full = "A".repeat(64);
    let table = table(&[
        number("A", 7),
        text("AB", "xy"),
        wide("a.b", ""),
        text(&full, "z"),
    ]);
    assert!(is_well_formed(&table));
    // In order: A, AAA.., AB, a.b
    assert_eq!(lookup(&table, b"A"), Some(Setting::Number(7)));
    let start = 128 + CONTENT;
    assert_eq!(
        lookup(&table, full.as_bytes()),
        Some(Setting::Text { start, len: 1 })
    );
    let start = 2 * 128 + CONTENT;
    assert_eq!(lookup(&table, b"AB"), Some(Setting::Text { start, len: 2 }));
    let start = 3 * 128 + CONTENT;
    assert_eq!(
        lookup(&table, b"a.b"),
        Some(Setting::Wide { start, len: 0 })
    );
    for missing in [
        &b""[..],
        b"B",
        b"AA",
        b"ABC",
        b"a",
        b"A\0",
        b"\0",
        b"AB\0\0",
    ] {
        assert_eq!(lookup(&table, missing), None);
    }
    assert_eq!(lookup(&table, "A".repeat(65).as_bytes()), None);
    assert_eq!(lookup(&table, "A".repeat(63).as_bytes()), None);
    assert_eq!(lookup(&[], b"A"), None);
}

#[test]
fn lines_and_ends() {
    assert_eq!(marks_of("a|b|"), Ok((vec![1, 1], 0)));
    assert_eq!(marks_of("a|b"), Ok((vec![1, 1], 0)));
    assert_eq!(marks_of("|"), Ok((vec![1], 0)));
    assert_eq!(marks_of("||x"), Ok((vec![1, 1, 1], 0)));
    assert_eq!(
        marks_in(b"!if 1\r\nx\r\n!endif\r\n", &[]),
        Ok((vec![4, 1, 5], 0))
    );
}

#[test]
fn words() {
    for plain in [
        "!include x",
        "!error",
        " \t!include",
        "x !if",
        "",
        " \t",
        "#!if",
    ] {
        assert_eq!(marks_of(&format!("{plain}|")), Ok((vec![1], 0)), "{plain}");
    }
    for bad in [
        "!", "! if 1", "!If 1", "!IF 1", "!elsif 1", "!end", "!#", "!1", "!_if",
    ] {
        assert_eq!(marks_of(bad), Err((18, 1)), "{bad}");
        let dropped = format!("!if 0|{bad}|!endif|");
        assert_eq!(marks_of(&dropped), Err((18, 2)), "{bad}");
    }
    assert_eq!(
        marks_of("\t !if 1 | !elif @| !endif"),
        Ok((vec![4, 2, 5], 0))
    );
}

#[test]
fn nesting() {
    for (file, refusal) in [
        ("!endif", (19, 1)),
        ("!else", (19, 1)),
        ("!elseif 1", (19, 1)),
        ("!elif", (19, 1)),
        ("!if 1|!else|!else|!endif", (19, 3)),
        ("!if 0|!else|!elseif 1|!endif", (19, 3)),
        ("!if 1|!endif|!endif", (19, 3)),
        ("!if 0|!if @|!else|!else", (19, 4)),
        ("!if 1", (21, 1)),
        ("x|!ifdef A|!ifndef A|!else|x", (21, 3)),
        ("!if 1|!if 1|!endif|x", (21, 1)),
    ] {
        assert_eq!(marks_of(file), Err(refusal), "{file}");
    }
}

#[test]
fn seventeen_open_groups() {
    for word in ["!if 1", "!ifdef A", "!ifndef A", "!if 0"] {
        let nested = |depth: usize| {
            format!(
                "{}{}",
                format!("{word}|").repeat(depth),
                "!endif|".repeat(depth)
            )
        };
        assert!(marks_of(&nested(16)).is_ok());
        assert_eq!(marks_of(&nested(17)), Err((20, 17)));
    }
}

#[test]
fn reading_depends_on_the_branch_around() {
    // Nothing in a dropped branch is read, in any kind of group.
    assert_eq!(
        marks_of("!if 0|!ifdef ?|!elseif @|x|!else y|!endif z|y|!else|z|!endif"),
        Ok((vec![3, 2, 2, 0, 2, 2, 0, 4, 1, 5], 0))
    );
    // After a taken branch `!elseif` is unread, and `!else` is read.
    assert_eq!(
        marks_of("!if 1|!elseif @|x|!else|x|!endif"),
        Ok((vec![4, 2, 0, 3, 0, 5], 0))
    );
    assert_eq!(marks_of("!if 1|!else x|!endif"), Err((22, 2)));
    assert_eq!(
        marks_of("!if 0|!elseif 1 + 0|x|!elseif @|x|!else|x|!endif|x"),
        Ok((vec![3, 4, 1, 2, 0, 3, 0, 5, 1], 1))
    );
    assert_eq!(
        marks_of("!if 0|!elif 0|x|!else|x|!endif"),
        Ok((vec![3, 3, 0, 4, 1, 5], 0))
    );
}

#[test]
fn ifdef_arguments() {
    let table = table(&[
        number("A", 0),
        text("B", ""),
        number("a.b", 1),
        number("AND", 1),
    ]);
    let first = |line: &str| {
        marks_in(format!("{line}\n!endif").as_bytes(), &table).map(|(marks, _)| marks[0])
    };
    // Those with `$( )` are in order05.rs.
    for taken in [
        "!ifdef A",
        "!ifdef \t A \t",
        "!ifdef B # c",
        "!ifdef B# c",
        "!ifndef C",
        "!ifdef AND",
    ] {
        assert_eq!(first(taken), Ok(4), "{taken}");
    }
    for not in ["!ifdef C", "!ifndef A", "!ifndef B #"] {
        assert_eq!(first(not), Ok(3), "{not}");
    }
    for bad in [
        "!ifdef",
        "!ifdef ",
        "!ifdef #A",
        "!ifdef A B",
        "!ifdef a",
        "!ifdef a.b",
        "!ifdef A.b",
        "!ifdef $(A",
        "!ifdef A)",
        "!ifdef $( A)",
        "!ifdef $(A )",
        "!ifdef $A",
        "!ifdef 1",
        "!ifdef $(A)B",
        "!ifdef _A",
        "!ifdef\"A\"",
        "!ifdef$(A)",
        "!ifndef(A)",
        "!ifndef",
    ] {
        assert_eq!(first(bad), Err((22, 1)), "{bad}");
    }
}

#[test]
fn conditions() {
    assert_eq!(marks_of("!if 2|!endif"), Err((13, 1)));
    assert_eq!(marks_of("!if L'a'|!endif"), Err((13, 1)));
    assert_eq!(marks_of("!if TRUE|!endif"), Ok((vec![4, 5], 0)));
    assert_eq!(marks_of("!if 0|!elseif 2|!endif"), Err((13, 2)));
    assert_eq!(marks_of("!if 1 / 0|"), Err((12, 1)));
    // The count goes on over the read expressions only.
    assert_eq!(
        marks_of("!if 1 - 1|!elif 2 - 1 - 1|!elif !0|!elif 1 + 1|!endif"),
        Ok((vec![3, 3, 4, 2, 5], 4))
    );
}

#[test]
fn limits_of_a_file() {
    let mut marks = vec![7; 5_000];
    let long = vec![b'\n'; 65_537];
    let refused = |number| Err((Refusal::nowhere(number), 0));
    assert_eq!(select(&long, &[1], &mut marks), refused(1));
    assert_eq!(select(&long, &[], &mut marks), refused(14));
    assert_eq!(select(&long[..4_097], &[], &mut []), refused(15));
    assert_eq!(
        select(&long[..4_096], &[], &mut marks[..4_095]),
        refused(16)
    );
    marks.fill(7);
    assert_eq!(select(&long[..4_096], &[], &mut marks), Ok((4_096, 0)));
    assert!(marks[..4_096].iter().all(|&mark| mark == 1));
    assert!(marks[4_096..].iter().all(|&mark| mark == 7));

    let full: Vec<u8> = (0..65_536)
        .map(|place| if place % 1_024 == 1_023 { b'\n' } else { b'x' })
        .collect();
    assert_eq!(marks_in(&full, &[]), Ok((vec![1; 64], 0)));

    let line = |length| [vec![b'x'; length], b"\r\n".to_vec()].concat();
    assert_eq!(marks_in(&line(1_024), &[]), Ok((vec![1], 0)));
    assert_eq!(marks_in(&line(1_025), &[]), Err((17, 1)));
    // 17 is checked before the word, and line by line.
    let bad = [b"!x".to_vec(), line(1_025)].concat();
    assert_eq!(marks_in(&bad, &[]), Err((17, 1)));
    let bad = [b"!x\n".to_vec(), line(1_025)].concat();
    assert_eq!(marks_in(&bad, &[]), Err((18, 1)));
}

#[test]
fn order_within_a_line() {
    // 20 before the argument is looked at, 22 before the expression.
    let open = "!if 1|".repeat(16);
    assert_eq!(marks_of(&format!("{open}!if@")), Err((20, 17)));
    assert_eq!(marks_of("!if@"), Err((22, 1)));
    assert_eq!(marks_of("!if @"), Err((3, 1)));
    assert_eq!(marks_of("!else x"), Err((19, 1)));
}

/// The field's bytes, in a buffer that shows what was written.
fn bytes_of(expr: &str, datum: u8, room: usize) -> Result<Vec<u8>, u8> {
    let mut buffer = vec![0xAA; room];
    let result = unplaced(field(expr.as_bytes(), &[], datum, &mut buffer));
    let written = *result.as_ref().unwrap_or(&0);
    assert!(buffer[written..].iter().all(|&byte| byte == 0xAA));
    result.map(|length| buffer[..length].to_vec())
}

#[test]
fn fields() {
    assert_eq!(bytes_of("'ab'", 0, 8), Ok(b"ab\0".to_vec()));
    assert_eq!(bytes_of("''", 0, 1), Ok(b"\0".to_vec()));
    assert_eq!(bytes_of("L'ab'", 0, 8), Ok(b"a\0b\0\0\0".to_vec()));
    assert_eq!(bytes_of("L''", 0, 2), Ok(b"\0\0".to_vec()));
    assert_eq!(bytes_of("1", 1, 1), Ok(vec![1]));
    assert_eq!(bytes_of("255", 2, 1), Ok(vec![255]));
    assert_eq!(bytes_of("0x1234", 3, 9), Ok(vec![0x34, 0x12]));
    assert_eq!(
        bytes_of("0x12345678", 4, 4),
        Ok(vec![0x78, 0x56, 0x34, 0x12])
    );
    assert_eq!(
        bytes_of("1 << 63", 5, 8),
        Ok(vec![0, 0, 0, 0, 0, 0, 0, 128])
    );
}

#[test]
fn field_refusals() {
    assert_eq!(bytes_of("1 / 0", 6, 0), Err(12));
    for datum in 6..=255 {
        assert_eq!(bytes_of("'a'", datum, 0), Err(23));
    }
    assert_eq!(bytes_of("1", 0, 0), Err(24));
    for datum in 1..=5 {
        assert_eq!(bytes_of("'a'", datum, 0), Err(24));
        assert_eq!(bytes_of("L'a'", datum, 0), Err(24));
    }
    for (datum, largest, length) in [
        (1, 1, 1),
        (2, 0xFF, 1),
        (3, 0xFFFF, 2),
        (4, 0xFFFF_FFFFu64, 4),
    ] {
        assert_eq!(bytes_of(&format!("{}", largest + 1), datum, 0), Err(25));
        assert_eq!(bytes_of(&format!("{largest}"), datum, length - 1), Err(26));
        assert!(bytes_of(&format!("{largest}"), datum, length).is_ok());
    }
    assert_eq!(bytes_of("1", 5, 7), Err(26));
    assert_eq!(bytes_of("'ab'", 0, 2), Err(26));
    assert_eq!(bytes_of("L'ab'", 0, 5), Err(26));
    assert_eq!(field(b"1", &[0], 5, &mut [0; 8]), Err(Refusal::nowhere(1)));
}

#[test]
fn refusal_numbers_have_meanings() {
    for number in 1..=28 {
        assert_ne!(
            oracle::refusal::meaning(number),
            oracle::refusal::meaning(0)
        );
    }
}
