//! Old and new spelling (document 02, order 5, and the readings A31 to A35). In
//! the texts `§` stands before the byte that a refusal is to name.

mod common;

use common::*;
use oracle::tokens::code;
use oracle::{Edition, Refusal, Value, EDITIONS};
use Edition::{New, Old};

/// Number and count of an expression, or number and offset of its refusal.
fn answer(edition: Edition, expr: &[u8]) -> Result<(u64, u64), (u8, usize)> {
    let settings = settings();
    match oracle::evaluate(expr, &settings, edition) {
        Ok(outcome) => match outcome.value {
            Value::Number(number) => Ok((number, outcome.count)),
            other => panic!("a number was expected, not {other:?}"),
        },
        Err(refusal) => Err((refusal.number, refusal.offset())),
    }
}

/// `$(S)` and `g.S` are `a`, `$(W)` is a wide `a`; `$(N)` and `g.N` are not there.
fn settings() -> Vec<u8> {
    table(&[
        number("A", 1),
        text("S", "a"),
        wide("W", "a"),
        text("g.S", "a"),
    ])
}

/// The text without its `§`, and where that was.
fn unmarked(marked: &str) -> (String, usize) {
    let place = marked.find('§').expect("a § in the text");
    let text = marked.replacen('§', "", 1);
    assert!(!text.contains('§'), "{marked}");
    (text, place)
}

/// Checks that an edition refuses the text with this number at the `§`: as an
/// expression by itself, as a field, and as a condition in which the place is
/// counted from the line's start.
fn refused(edition: Edition, number: u8, marked: &str) {
    let (text, place) = unmarked(marked);
    let settings = settings();
    assert_eq!(
        answer(edition, text.as_bytes()),
        Err((number, place)),
        "{edition:?} {marked}"
    );
    let mut buf = [0xAA; 9];
    for datum in [0, 1, 5, 255] {
        let written = oracle::field(text.as_bytes(), &settings, datum, edition, &mut buf);
        let refusal = Refusal::at(number, place);
        assert_eq!(written, Err(refusal), "{edition:?} {marked}");
        assert_eq!(buf, [0xAA; 9], "{edition:?} {marked}");
    }
    if text.contains(['\r', '\n']) {
        return;
    }
    for (line, front) in [(1, "!if "), (1, "\t!if\t "), (2, "!if 0\r\n !elif ")] {
        let file = format!("{front}{text}\r\n!endif\n");
        let before = front.len() - front.find('\n').map_or(0, |end| end + 1);
        let refusal = Refusal::at(number, before + place);
        let selected = selected_in(edition, file.as_bytes(), &settings);
        assert_eq!(selected, Err((refusal, line)), "{edition:?} {file:?}");
    }
}

/// The same of both editions.
fn refused_in_both(number: u8, marked: &str) {
    for edition in EDITIONS {
        refused(edition, number, marked);
    }
}

/// Checks that the old edition gives this number and count, and that the new
/// one refuses the bare word at the `§`.
fn old_gives(number: u64, count: u64, marked: &str) {
    let (text, _) = unmarked(marked);
    assert_eq!(
        answer(Old, text.as_bytes()),
        Ok((number, count)),
        "{marked}"
    );
    refused(New, 3, marked);
}

/// Code, start and length of each token, and the refusal.
type Read = (Vec<(u8, usize, usize)>, Option<Refusal>);

fn read(edition: Edition, expr: &[u8]) -> Read {
    let scan = oracle::scan(expr, edition);
    let token = |token: &oracle::Token| (token.code, token.start, token.len);
    (scan.tokens.iter().map(token).collect(), scan.refusal)
}

/// Runs that document 01 refuses, in every case that it tells apart.
#[rustfmt::skip]
const BARE: [&str; 45] = [
    "a", "z", "A", "Z", "_", "L", "l", "aa", "a1", "A9", "_1", "__", "L1", "LL", "Lx", "L_", "foo", "DEBUG", "GCC5",
    "x0x1F", "tRUE", "TRUe", "TRUE_", "TRUE1", "T", "fALSE", "falsE", "Not", "nOT", "NOTE", "And", "ANDy", "Xor", "XORs",
    "Or", "ORs", "lt", "Le", "gT", "ge", "eq", "Eq", "ne", "IN", "LABEL",
];

/// Words that document 01 takes: the binary operators, and the others.
const OPERATORS: [&str; 12] = [
    "LT", "LE", "GT", "GE", "EQ", "NE", "AND", "and", "XOR", "xor", "OR", "or",
];
const TRUTHS: [(&str, u64); 6] = [
    ("TRUE", 1),
    ("True", 1),
    ("true", 1),
    ("FALSE", 0),
    ("False", 0),
    ("false", 0),
];

#[test]
fn a_bare_word_is_a_string_of_its_own_bytes() {
    for word in BARE {
        for quote in ["'", "\""] {
            for (equal, unequal) in [
                ("==", "!="),
                ("EQ", "NE"),
                (" EQ\t", "\tNE "),
                (" == ", "!=\t \t"),
            ] {
                let blank = if equal == "EQ" { " " } else { "" };
                let text = |operator| format!("{quote}{word}{quote}{operator}{blank}§{word}");
                old_gives(1, 1, &text(equal));
                old_gives(0, 1, &text(unequal));
                let other = format!("{quote}{word} {quote}{equal}{blank}§{word} # c");
                old_gives(0, 1, &other);
            }
        }
    }
    old_gives(1, 1, "$(S) == §a");
    old_gives(1, 1, "g.S==§a");
    old_gives(0, 1, "$(S) == §A");
    old_gives(1, 1, "$(S) NE §aa");
    old_gives(0, 1, "'' == §_");
}

#[test]
fn tokens_of_bare_words() {
    let text = b"$(S)==a9 AND\t'b'NE _ == L";
    let expected = vec![
        (code::MACRO, 0, 4),
        (code::EQUAL, 4, 2),
        (code::BARE, 6, 2),
        (code::AND, 9, 3),
        (code::TEXT, 13, 3),
        (code::UNEQUAL, 16, 2),
        (code::BARE, 19, 1),
        (code::EQUAL, 21, 2),
        (code::BARE, 24, 1),
    ];
    assert_eq!(read(Old, text), (expected.clone(), None));
    assert_eq!(
        read(New, text),
        (expected[..2].to_vec(), Some(Refusal::at(3, 6)))
    );
    let values: Vec<u64> = oracle::scan(text, Old)
        .tokens
        .iter()
        .map(|token| token.value)
        .collect();
    assert_eq!(values, [0; 9]);
    assert_eq!(code::BARE, 6);
}

/// Reading A31: the base has no bare words, as the new edition, and takes
/// `$(NAME)`, as the old one.
#[test]
fn a31_the_base_is_neither_edition() {
    let settings = settings();
    let marks = |edition, file: &str| {
        selected_in(edition, file.as_bytes(), &settings)
            .map_err(|(refusal, line)| (refusal.number, line))
    };
    assert_eq!(marks(New, "!if $(S) == a\n!endif"), Err((3, 1)));
    assert_eq!(marks(Old, "!if $(S) == a\n!endif"), Ok((vec![4, 5], 1)));
    assert_eq!(marks(New, "!ifdef $(S)\n!endif"), Err((22, 1)));
    assert_eq!(marks(Old, "!ifdef $(S)\n!endif"), Ok((vec![4, 5], 0)));
}

#[test]
fn operator_words_and_truth_words_stay_what_they_are() {
    for equality in ["==", "!=", "EQ", "NE"] {
        for word in OPERATORS {
            refused_in_both(7, &format!("'{word}' {equality} §{word}"));
            refused_in_both(7, &format!("'{word}' {equality} §{word} 'a'"));
        }
        for word in ["NOT", "not"] {
            refused_in_both(7, &format!("'{word}' {equality} {word}§"));
            let expected = u64::from(matches!(equality, "==" | "EQ"));
            let text = format!("1 {equality} {word} 0");
            assert_eq!(number_of(&text), Ok((expected, 2)), "{text}");
        }
        for (word, value) in TRUTHS {
            refused_in_both(10, &format!("'{word}' §{equality} {word}"));
            let expected = u64::from((value == 1) == matches!(equality, "==" | "EQ"));
            let text = format!("1 {equality} {word}");
            assert_eq!(number_of(&text), Ok((expected, 1)), "{text}");
        }
    }
    // The word and then a bad byte (A4), not a bare word.
    refused_in_both(3, "1 == TRUE§.1");
    refused_in_both(3, "1 == AND§.1");
    refused_in_both(3, "1 == NOT§.");
}

#[test]
fn pcd_names_stay_what_they_are() {
    for name in [
        "g.N", "foo.bar", "L.L", "_._", "AND.x", "TRUE.t", "a.EQ", "NOT.not", "eq.ne",
    ] {
        for equality in ["==", "!=", "EQ", "NE"] {
            refused_in_both(9, &format!("$(S) {equality} §{name}"));
        }
    }
    assert_eq!(evaluate(b"$(S) == g.S", &settings()).unwrap().count, 1);
    refused_in_both(3, "$(S) == g.S§.x");
    refused_in_both(3, "$(S) == foo.bar§.baz");
}

/// Reading A32: what starts with `L` and a quote is a string.
#[test]
fn a32_a_wide_string_without_its_end_is_no_bare_word() {
    for marked in [
        "'abc' == §L\"abc",
        "'L' == §L\"",
        "'L'==§L'",
        "1 EQ §L\"a'",
        "1 NE §L'a # b",
        "'a' != §L\"b' == a",
    ] {
        refused_in_both(3, marked);
    }
    refused_in_both(3, "'a' == §L\"a\rb\"");
    refused_in_both(3, "'a' == §L'a\nb'");
    // As token 200 it is 3 too, and not `L` with something after it.
    refused_in_both(3, &format!("{}== §L\"abc", "+ ".repeat(198)));
    refused_in_both(10, "'a' §== L'a'");
    assert_eq!(number_in("$(W) == L\"a\"", &settings()), Ok((1, 1)));
    // With a blank between, or more than `L`, it is a bare word and then a string.
    for word in ["L ", "L\t", "LL", "l", "aL", "_", "foo"] {
        refused(Old, 7, &format!("'a' == {word}§\"abc\""));
        refused(Old, 3, &format!("'a' == {word}§\"abc"));
        refused(New, 3, &format!("'a' == §{word}\"abc\""));
    }
}

/// Reading A33 is about a later revision. Before it `LABEL` is a run as any other.
#[test]
fn a33_label_is_a_bare_word_before_revision_1_3() {
    old_gives(0, 1, "\"x\" == §LABEL");
    old_gives(1, 1, "'OFFSET_OF' == §OFFSET_OF");
    for (old, new) in [
        ("\"x\" == LABEL(§a)", "\"x\" == §LABEL(a)"),
        ("\"x\" == LABEL( §a)", "\"x\" == §LABEL( a)"),
    ] {
        refused(Old, 3, old);
        refused(New, 3, new);
    }
    refused(Old, 7, "'x' == LABEL§(1)");
}

/// Reading A34: what follows a bare word is the next token, or starts none.
#[test]
fn a34_a_bare_word_and_a_bad_byte() {
    for (old, new) in [
        ("$(S) == foo§.1", "$(S) == §foo.1"),
        ("$(S) == foo§.", "$(S) == §foo."),
        ("$(S) == foo§..b", "$(S) == §foo..b"),
        ("$(S) == foo§. b", "$(S) == §foo. b"),
        ("$(S) == foo §.b", "$(S) == §foo .b"),
        ("$(S)!=L§.'a'", "$(S)!=§L.'a'"),
        ("$(S) EQ foo§@", "$(S) EQ §foo@"),
        ("$(S) NE foo§\u{e9}", "$(S) NE §foo\u{e9}"),
        ("$(S) == foo§-", "$(S) == §foo-"),
        ("$(S) == foo§$A", "$(S) == §foo$A"),
    ] {
        refused(
            Old,
            if old.ends_with("§-") { 7 } else { 3 },
            &old.replace("§-", "-§"),
        );
        refused(New, 3, new);
    }
    // As token 200 the bare word is fine, and what follows it is 5.
    let before = format!("{}==", "+ ".repeat(198));
    refused(Old, 5, &format!("{before}foo§.1"));
    refused(New, 3, &format!("{before}§foo.1"));
}

/// Reading A35: the token directly before has to be the operator.
#[test]
fn a35_parentheses_and_signs_are_tokens_between() {
    for marked in [
        "$(S) == (§foo)",
        "$(S) == ((§foo))",
        "$(S) == !§foo",
        "$(S) == ! §foo",
        "$(S) == NOT §foo",
        "$(S) EQ -§foo",
        "$(S) NE +§foo",
        "$(S) != ~§foo",
        "$(S) == 1 §foo",
        "$(S) == $(S)§foo",
        "$(S) == 'a'§foo",
        "$(S) == (§L)",
    ] {
        refused_in_both(3, marked);
    }
}

#[test]
fn bare_words_elsewhere() {
    for marked in [
        "§foo",
        "§L",
        "§_",
        "  §foo == 'foo'",
        "§foo == foo",
        "(§foo) == 'foo'",
        "1 ? §foo : 'a'",
        "1 ? 'a' : §foo",
        "1 §foo",
    ] {
        refused_in_both(3, marked);
    }
    for operator in [
        "<", "<=", ">", ">=", "LT", "LE", "GT", "GE", "*", "/", "%", "+", "-", "<<", ">>", "&",
        "^", "|", "&&", "AND", "and", "XOR", "xor", "||", "OR", "or",
    ] {
        refused_in_both(3, &format!("$(S) {operator} §foo"));
        refused_in_both(3, &format!("$(S) {operator}\t§_"));
    }
    // `=` and `! =` are no operators of this kind, nor is what only looks like one.
    refused_in_both(3, "$(S) §= foo");
    refused_in_both(3, "$(S) ! §= foo");
    refused_in_both(3, "$(S) ==§= foo");
    refused_in_both(3, "$(S) !=§= foo");
    refused_in_both(3, "$(S) §eq foo");
    refused_in_both(3, "$(S) §EQfoo");
    refused_in_both(3, "$(S) §Ne foo");
    refused_in_both(9, "$(S) + §EQ.foo");
}

#[test]
fn two_operators_or_two_words() {
    refused(Old, 7, "'a' == §== a");
    refused(New, 3, "'a' == == §a");
    refused_in_both(7, "'a' == §==");
    refused(Old, 7, "§== a");
    refused(New, 3, "== §a");
    refused(Old, 7, "§EQ NE a");
    refused(New, 3, "EQ NE §a");
    refused(Old, 3, "'a' == a §b");
    refused(New, 3, "'a' == §a b");
    refused(Old, 7, "'a' == a §1");
    refused(Old, 7, "'a' == a §'b'");
    refused(Old, 7, "'a' == a§(1)");
    refused(Old, 7, "'a' == a§$(S)");
    refused(Old, 7, "'a' == a §NOT 1");
    refused(Old, 7, "('a' == a§");
    refused(Old, 7, "'a' == a§)");
}

#[test]
fn what_follows_an_operator_and_is_no_bare_word() {
    for marked in [
        "$(S) == §1a",
        "$(S) == §0x",
        "$(S) == §007",
        "$(S) == §1_",
        "$(S) == §$(a)",
        "$(S) == §$foo",
    ] {
        refused_in_both(3, marked);
    }
    refused_in_both(3, "$(S) == §\u{e9}a");
    refused_in_both(3, "$(S) == §.a");
    refused_in_both(3, "$(S) == §'a");
    refused_in_both(4, "$(S) == §18446744073709551616");
    refused_in_both(7, "$(S) == §# a");
    refused_in_both(7, "$(S) ==  §");
    for end in ["#b", " # b", "\t", "#"] {
        old_gives(1, 1, &format!("$(S) == §a{end}"));
    }
}

#[test]
fn kinds_and_counts() {
    old_gives(1, 2, "'a' == §a == 1");
    old_gives(1, 3, "'a' == §a AND 'b' != a");
    old_gives(0, 2, "0 AND 'a' == §a AND 1");
    old_gives(0, 1, "0 AND 'a' == §a");
    old_gives(2, 2, "'a' == §a ? 2 : 1 / 0");
    old_gives(1, 2, "1 ? $(S) == §a : $(S) == b");
    old_gives(1, 2, "('a' == §a) == TRUE");
    old_gives(0, 2, "!('a' == §a)");
    // The tighter operators take it for their left operand.
    old_gives(1, 2, "1 == §a < 'b'");
    old_gives(1, 2, "0 != §a LE 'b'");
    for (old, new) in [
        ("1 §== foo", "1 == §foo"),
        ("1 §NE foo", "1 NE §foo"),
        ("L'foo' §== foo", "L'foo' == §foo"),
        ("$(W) §!= a", "$(W) != §a"),
        ("$(N) §== a", "$(N) == §a"),
        ("$(A) §EQ a", "$(A) EQ §a"),
        ("'a' == a §!= a", "'a' == §a != a"),
        ("'a' == a §+ 1", "'a' == §a + 1"),
        ("'a' §== a < 'b'", "'a' == §a < 'b'"),
        ("0 AND 1 §== a", "0 AND 1 == §a"),
        ("1 ? 1 : 1 §== a", "1 ? 1 : 1 == §a"),
    ] {
        refused(Old, 10, old);
        refused(New, 3, new);
    }
    refused(Old, 9, "'a' == a AND §g.N");
    refused(Old, 9, "§g.N == a");
    refused(Old, 11, "'a' == a AND 1 §- 2");
    refused(Old, 12, "'a' == a AND 1 §/ 0");
    refused(Old, 4, "'a' == a AND §99999999999999999999");
}

#[test]
fn bars_beside_bare_words() {
    let settings = settings();
    let text = "$(S) == b || $(S) == a";
    let (alone, old) = (answer(Old, text.as_bytes()), Err((8, 10)));
    assert_eq!(alone, old);
    assert_eq!(answer(New, text.as_bytes()), Err((3, 8)));
    assert_eq!(answer(Old, format!("({text})").as_bytes()), Ok((1, 3)));
    let file = format!("!if {text}\nx\n!endif\n");
    let marks = selected_in(Old, file.as_bytes(), &settings);
    assert_eq!(marks, Ok((vec![4, 1, 5], 3)));
    let marks = selected_in(New, file.as_bytes(), &settings);
    assert_eq!(marks, Err((Refusal::at(3, 12), 1)));
}

#[test]
fn fields_of_comparisons_with_bare_words() {
    let settings = settings();
    for (datum, len) in [(1, 1), (2, 1), (3, 2), (4, 4), (5, 8)] {
        let mut buf = [0xAA; 9];
        let written = oracle::field(b"$(S) == a", &settings, datum, Old, &mut buf);
        assert_eq!(written, Ok(len));
        assert_eq!(buf[0], 1);
        assert!(buf[1..len].iter().all(|&byte| byte == 0));
        assert!(buf[len..].iter().all(|&byte| byte == 0xAA));
    }
    let written = oracle::field(b"$(S) == a", &settings, 0, Old, &mut [0; 9]);
    assert_eq!(written, Err(Refusal::nowhere(24)));
    // A string can be a field, a bare word alone cannot.
    let written = oracle::field(b"a", &settings, 0, Old, &mut [0; 9]);
    assert_eq!(written, Err(Refusal::at(3, 0)));
}

#[test]
fn token_200_and_what_follows_it() {
    // 3 tokens, 97 times 2, and 3.
    let full = format!("!1 OR {}'a' == §a", "0 OR ".repeat(97));
    let (text, _) = unmarked(&full);
    assert_eq!(oracle::scan(text.as_bytes(), Old).tokens.len(), 200);
    old_gives(1, 100, &full);
    old_gives(1, 100, &format!("{full} # b"));
    for tail in [" §b", "§.1", "§@", " §=="] {
        refused(Old, 5, &format!("{text}{tail}"));
        refused(New, 3, &format!("{full}{}", tail.replace('§', "")));
    }
    // After token 200 a bare word is 5, whatever comes before it.
    for operator in ["==", "!=", "EQ", "NE"] {
        refused_in_both(5, &format!("{}{operator} §foo", "+ ".repeat(199)));
        refused(Old, 7, &format!("{}§{operator} foo", "+ ".repeat(198)));
        refused(New, 3, &format!("{}{operator} §foo", "+ ".repeat(198)));
    }
    refused_in_both(5, &format!("{} §foo", "+ ".repeat(200).trim_end()));
}

#[test]
fn long_bare_words() {
    for len in [55, 56, 57, 63, 64, 65, 66, 255, 256, 257, 500] {
        let word = "w".repeat(len);
        old_gives(1, 1, &format!("'{word}' == §{word}"));
        old_gives(0, 1, &format!("'{word}' == §{}", &word[1..]));
    }
    // 1,024 bytes in all, and one more.
    let text = |len| format!("''=={}", "w".repeat(len));
    assert_eq!(answer(Old, text(1_020).as_bytes()), Ok((0, 1)));
    assert_eq!(answer(New, text(1_020).as_bytes()), Err((3, 4)));
    for edition in EDITIONS {
        assert_eq!(answer(edition, text(1_021).as_bytes()), Err((2, 0)));
    }
}

/// The answer to an `!ifdef` or `!ifndef`: its mark, or the refusal.
fn tested(edition: Edition, line: &str) -> Result<u8, u8> {
    let file = format!("{line}\n!endif");
    match selected_in(edition, file.as_bytes(), &settings()) {
        Ok((marks, count)) => {
            assert_eq!((&marks[1..], count), (&[5][..], 0), "{line}");
            Ok(marks[0])
        }
        Err((refusal, 1)) => {
            assert_eq!(refusal, Refusal::nowhere(refusal.number), "{line}");
            Err(refusal.number)
        }
        Err(refusal) => panic!("{line}: {refusal:?}"),
    }
}

#[test]
fn macros_with_brackets_after_ifdef() {
    for (name, is_set) in [
        ("A", true),
        ("S", true),
        ("W", true),
        ("N", false),
        ("AND", false),
    ] {
        for (before, after) in [
            (" ", ""),
            ("\t", " "),
            (" \t ", "\t # c"),
            (" ", "# c"),
            ("  ", "#$"),
        ] {
            for (word, mark) in [
                ("ifdef", 3 + u8::from(is_set)),
                ("ifndef", 4 - u8::from(is_set)),
            ] {
                let line = format!("!{word}{before}$({name}){after}");
                assert_eq!(tested(Old, &line), Ok(mark), "{line}");
                assert_eq!(tested(New, &line), Err(22), "{line}");
                let plain = format!("!{word}{before}{name}{after}");
                for edition in EDITIONS {
                    assert_eq!(tested(edition, &plain), Ok(mark), "{plain}");
                }
            }
        }
    }
}

#[test]
fn malformed_brackets_after_ifdef() {
    #[rustfmt::skip]
    let texts = [
        "$", "$(", "$()", "$(A", "$A", "$A)", "$(A}", "${A}", "$[A]", "A)", "(A)", "$ (A)", "$( A)", "$(A )", "$(\tA)", "$(a)",
        "$(Ab)", "$(_A)", "$(1)", "$(A.B)", "$(g.S)", "$((A))", "$(A))", "$(A)B", "$(A)$(A)", "$(A) B", "$(A) $(A)", "$(A) || $(S)",
        "$(A)|", "$(A)@", "$(A#)", "#$(A)", "$#(A)", "$(#A)", "'$(A)'", "\"A\"", "$$(A)", "$(A)\rB", "$(A)\x0b", "$(A)\u{e9}",
        "!$(A)", "NOT $(A)", "$(A)=", "$(A).b",
    ];
    for text in texts {
        for word in ["!ifdef ", "!ifndef\t", " !ifdef  "] {
            for edition in EDITIONS {
                let line = format!("{word}{text}");
                assert_eq!(tested(edition, &line), Err(22), "{edition:?} {line}");
            }
        }
    }
    // The word needs its blank.
    for line in ["!ifdef$(A)", "!ifndef$(A)"] {
        for edition in EDITIONS {
            assert_eq!(tested(edition, line), Err(22), "{edition:?} {line}");
        }
    }
}

#[test]
fn names_of_about_64_bytes_in_brackets() {
    for set in [63, 64] {
        let table = table(&[number(&"X".repeat(set), 0)]);
        for asked in 62..=66 {
            let file = format!("!ifdef $({})\n!endif", "X".repeat(asked));
            let mark = 3 + u8::from(asked == set);
            let marks = selected_in(Old, file.as_bytes(), &table);
            assert_eq!(marks, Ok((vec![mark, 5], 0)), "{set} {asked}");
            let marks = selected_in(New, file.as_bytes(), &table);
            assert_eq!(marks, Err((Refusal::nowhere(22), 1)), "{set} {asked}");
        }
    }
}

#[test]
fn old_spelling_in_directives_that_are_not_read() {
    let file = "!if 0|!ifdef $(A)|!elseif $(S) == a|!endif|!elif 1|!elif $(S) == a|!endif|!if 1|!else|!ifndef $(A)|!endif|!endif";
    assert_eq!(
        marks_of(file),
        Ok((vec![3, 2, 2, 2, 4, 2, 5, 4, 3, 2, 2, 5], 0))
    );
}

#[test]
fn what_is_refused_before_old_spelling() {
    let open = "!if 1\n".repeat(16);
    let settings = settings();
    for (number, line, file) in [
        (17, 1, format!("!ifdef $(A){}", " ".repeat(1_024))),
        (20, 17, format!("{open}!ifdef $(A)")),
        (20, 17, format!("{open}!if $(S) == a")),
        (19, 1, "!elif $(S) == a".to_string()),
    ] {
        let refusal = (Refusal::nowhere(number), line);
        assert_eq!(selected(file.as_bytes(), &settings), Err(refusal), "{file}");
    }
    let file = b"!ifdef $(A)\n!if $(S) == a";
    let refusal = |edition| selected_in(edition, file, &settings).err();
    assert_eq!(refusal(New), Some((Refusal::nowhere(22), 1)));
    assert_eq!(refusal(Old), Some((Refusal::nowhere(21), 2)));
    for edition in EDITIONS {
        let mut marks = [7; 3];
        let refused = oracle::select(file, &[0], edition, &mut marks);
        assert_eq!(refused, Err((Refusal::nowhere(1), 0)));
        let refused = oracle::select(file, &settings, edition, &mut marks[..1]);
        assert_eq!(refused, Err((Refusal::nowhere(16), 0)));
        assert_eq!(marks, [255; 3]);
    }
}
