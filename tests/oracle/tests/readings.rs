//! One test for each settled reading of document 01.

mod common;

use common::*;
use oracle::{is_well_formed, Refusal, Value};

#[test]
fn a1_else_and_endif_need_no_blank() {
    assert_eq!(marks_of("!if 1|!else|!endif"), Ok((vec![4, 3, 5], 0)));
    for bad in ["!if(1)", "!ifdef$(A)", "!ifndef$(A)"] {
        assert_eq!(marks_of(bad), Err((22, 1)));
    }
    assert_eq!(marks_of("!if 0|!elseif(1)"), Err((22, 2)));
    assert_eq!(marks_of("!if 0|!elif(1)"), Err((22, 2)));
}

#[test]
fn a2_a_comment_needs_no_blank_before_it() {
    assert_eq!(
        marks_of("!ifdef A#c|!else#c|!endif#c"),
        Ok((vec![3, 4, 5], 0))
    );
}

#[test]
fn a3_no_expression_after_the_blank() {
    for file in ["!if # c", "!if ", "!if \t"] {
        assert_eq!(marks_of(file), Err((7, 1)), "{file}");
    }
    for file in ["!if", "!if#", "!if(1)"] {
        assert_eq!(marks_of(file), Err((22, 1)), "{file}");
    }
}

#[test]
fn a4_a_good_token_stands_before_a_bad_byte() {
    let read = |expr: &str| {
        let scan = scan(expr.as_bytes());
        let number = scan.refusal.map(|refusal| refusal.number);
        (number, scan.tokens.len())
    };
    for expr in ["1.a", "a.b.c", "AND.1", "==="] {
        assert_eq!(read(expr), (Some(3), 1), "{expr}");
    }
    assert_eq!(read("a.1"), (Some(3), 0));
    let before = "+ ".repeat(199);
    for expr in ["1.a", "a.b.c", "AND.1", "==="] {
        assert_eq!(read(&format!("{before}{expr}")), (Some(5), 200), "{expr}");
    }
    assert_eq!(read(&format!("{before}a.1")), (Some(3), 199));
}

#[test]
fn a5_the_bracket_of_a_macro_is_no_parenthesis() {
    let expr = format!("{}$(A){}", "(".repeat(16), ")".repeat(16));
    assert_eq!(value_of(&expr), Ok(0));
}

#[test]
fn a6_the_difference_is_signed() {
    let expr =
        |closing: usize, opening: usize| format!("{}{}1", ")".repeat(closing), "(".repeat(opening));
    assert_eq!(number_of(&expr(10, 26)), Err(7));
    assert_eq!(number_of(&expr(10, 27)), Err(6));
}

#[test]
fn a7_names_have_no_limit_in_an_expression() {
    let long = "X".repeat(65);
    // The table holds the first 64 bytes of each name, which must not match.
    let pcd = format!("p.{}", "x".repeat(63));
    let table = table(&[number(&long[..64], 1), number(&pcd[..64], 1)]);
    assert!(is_well_formed(&table));
    assert_eq!(number_in(&format!("$({long})"), &table), Ok((0, 0)));
    assert_eq!(
        number_in(&format!("$({})", &long[..64]), &table),
        Ok((1, 0))
    );
    assert_eq!(number_in(&pcd, &table), Err(9));
    assert_eq!(number_in(&pcd[..64], &table), Ok((1, 0)));
    let file = format!("!ifdef {long}\n!endif\n!ifdef {}\n!endif", &long[..64]);
    assert_eq!(marks_in(file.as_bytes(), &table), Ok((vec![3, 5, 4, 5], 0)));
}

#[test]
fn a8_a_table_string_may_hold_any_byte() {
    let table = table(&[record(b"A", 1, b"a\0\0"), record(b"B", 2, b"\r\n\"'\xff")]);
    assert!(is_well_formed(&table));
    let value = |expr: &'static [u8]| evaluate(expr, &table).map(|outcome| outcome.value);
    assert_eq!(value(b"$(A)"), Ok(Value::Text(b"a\0\0")));
    assert_eq!(value(b"$(B)"), Ok(Value::Wide(b"\r\n\"'\xff")));
}

#[test]
fn a9_a_cr_without_its_lf_stays() {
    assert_eq!(marks_in(b"!if 1\r", &[]), Err((3, 1)));
    assert_eq!(marks_in(b"!if 1\n!endif\r", &[]), Err((22, 2)));
    assert_eq!(marks_in(b"!if 1\n!else\r\r\n!endif", &[]), Err((22, 2)));
    assert_eq!(
        marks_in(b"!if 1\n!else\r\n!endif", &[]),
        Ok((vec![4, 3, 5], 0))
    );
    let line = |end: &[u8]| [&vec![b'x'; 1_024][..], end].concat();
    assert_eq!(marks_in(&line(b"\r"), &[]), Err((17, 1)));
    assert_eq!(marks_in(&line(b"\r\r\n"), &[]), Err((17, 1)));
    assert_eq!(marks_in(&line(b"\r\n"), &[]), Ok((vec![1], 0)));
}

#[test]
fn a10_a_word_is_letters_only() {
    for line in ["!if1", "!if_"] {
        assert_eq!(marks_of(line), Err((22, 1)), "{line}");
        let dropped = format!("!if 0|{line}|!endif|!endif");
        assert_eq!(marks_of(&dropped), Ok((vec![3, 2, 2, 5], 0)), "{line}");
    }
    for line in ["!else9", "!endif_x"] {
        assert_eq!(marks_of(&format!("!if 1|{line}")), Err((22, 2)), "{line}");
    }
    assert_eq!(
        marks_of("!if 0|!if 1|!else9|!endif_x|!endif"),
        Ok((vec![3, 2, 2, 2, 5], 0))
    );
    assert_eq!(marks_of("!include1"), Ok((vec![1], 0)));
    for line in ["!ifx", "!includes"] {
        assert_eq!(marks_of(line), Err((18, 1)), "{line}");
        assert_eq!(marks_of(&format!("!if 0|{line}")), Err((18, 2)), "{line}");
    }
}

#[test]
fn a11_a_string_is_no_condition() {
    assert_eq!(marks_of("!if \"a\""), Err((13, 1)));
    assert_eq!(marks_of("!if L\"a\""), Err((13, 1)));
}

#[test]
fn a12_a_field_answers_its_length_alone() {
    assert_eq!(field(b"1 + 1", &[], 5, &mut [0; 8]), Ok(8));
}

#[test]
fn a13_an_empty_string_part_has_no_bytes() {
    let table = table(&[text("A", "")]);
    for expr in [&b"\"\""[..], b"$(A)"] {
        let outcome = evaluate(expr, &table).unwrap();
        assert_eq!(outcome.value, Value::Text(b""));
    }
}

#[test]
fn a14_early_refusals_change_the_marks_too() {
    let mut marks = [7; 3];
    let refused = |number| Err((Refusal::nowhere(number), 0));
    assert_eq!(select(b"a\nb\nc\nd", &[], &mut marks), refused(16));
    assert_eq!(marks, [255; 3]);
    let mut marks = [7; 9];
    assert_eq!(select(b"a", &[1], &mut marks), refused(1));
    assert_eq!(marks, [255; 9]);
}

#[test]
fn a15_short_circuited_operators_count() {
    assert_eq!(number_of("0 AND 1/0"), Ok((0, 1)));
    assert_eq!(number_of("(1 || $(X))"), Ok((1, 1)));
    assert_eq!(number_of("(1 || 1/0)"), Ok((1, 1)));
    assert_eq!(number_of("!0 ? 2 + 2 : 1/0"), Ok((4, 3)));
}

#[test]
fn a16_nesting_is_checked_in_dropped_branches() {
    assert_eq!(marks_of("!if 0|!if 1|!else|!elif @|"), Err((19, 4)));
    assert_eq!(marks_of("!if 0|!if 1|!else|!elseif @|"), Err((19, 4)));
    assert_eq!(marks_of("!if 1|!else|!elif @|"), Err((19, 3)));
}

#[test]
fn a17_elif_and_elseif_unread_do_not_matter() {
    assert_eq!(
        marks_of("!if 1|!elif @|!endif"),
        marks_of("!if 1|!elseif $|!endif")
    );
}

#[test]
fn a18_line_ends_do_not_matter() {
    let lines = "!if 1|a|!else|b|!endif|";
    let unix = lines.replace('|', "\n");
    let dos = lines.replace('|', "\r\n");
    let expected = Ok((vec![4, 1, 3, 0, 5], 0));
    assert_eq!(marks_in(unix.as_bytes(), &[]), expected);
    assert_eq!(marks_in(dos.as_bytes(), &[]), expected);
    assert_eq!(marks_in(unix.trim_end().as_bytes(), &[]), expected);
}

#[test]
fn a87_only_ascii_letters_are_letters() {
    for byte in 0x80..=0xff {
        assert_eq!(refusal_of(&[byte]), Some(3));
        assert_eq!(refusal_of(&[b'a', byte, b'.', b'b']), Some(3));
        assert_eq!(marks_in(&[b'!', byte], &[]), Err((18, 1)));
        assert_eq!(marks_in(&[b'!', b'i', b'f', byte], &[]), Err((22, 1)));
    }
}
