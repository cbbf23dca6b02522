//! DEFINE lines (document 02, order 6, and the readings A36 to A42 and A88). In
//! the texts `§` stands before the byte that a refusal is to name.

mod common;

use common::*;
use oracle::definition::{after_define, shape};
use oracle::{Edition, Refusal, EDITIONS};
use Edition::{New, Old};

/// `$(A)` is 7, `$(S)` an `a`, `$(W)` a wide one; `g.P` is 3, `g.N` is not there.
fn settings() -> Vec<u8> {
    table(&[
        number("A", 7),
        text("S", "a"),
        wide("W", "a"),
        number("g.P", 3),
    ])
}

/// Marks and count under these settings, or number and line of the refusal.
fn marks(file: &str) -> Result<(Vec<u8>, u64), (u8, usize)> {
    marks_in(file.as_bytes(), &settings())
}

/// Checks that the file, whose last line is a condition, is accepted up to
/// there, and gives whether the condition is true.
fn holds_in(edition: Edition, file: &str, table: &[u8]) -> bool {
    let file = format!("{file}\n!endif\n");
    let (marks, _) = selected_in(edition, file.as_bytes(), table).unwrap_or_else(|refusal| {
        panic!("{edition:?} {file}: {refusal:?}");
    });
    marks[marks.len() - 2] == 4
}

fn holds(file: &str) -> bool {
    let [new, old] = EDITIONS.map(|edition| holds_in(edition, file, &settings()));
    assert_eq!(new, old, "{file}");
    new
}

/// Checks that an edition refuses the expression of a DEFINE line with this
/// number at the `§`, which is counted from the line's start.
fn refused(edition: Edition, number: u8, marked: &str) {
    let place = marked.find('§').expect("a § in the text");
    let text = marked.replacen('§', "", 1);
    for front in ["DEFINE X =", "DEFINE X = ", " \tDEFINE\t A\t=\t "] {
        for end in ["", "\n", "\r\n", "\nx\n!if @\n"] {
            let file = format!("x\n!if 1\n{front}{text}{end}");
            let refusal = Refusal::at(number, front.len() + place);
            let selected = selected_in(edition, file.as_bytes(), &settings());
            assert_eq!(selected, Err((refusal, 3)), "{edition:?} {file:?}");
        }
    }
}

fn refused_in_both(number: u8, marked: &str) {
    for edition in EDITIONS {
        refused(edition, number, marked);
    }
}

#[test]
fn a_macro_is_set_from_the_next_line_on() {
    assert_eq!(
        marks_of("DEFINE A = 1|!if $(A) == 1|x|!endif"),
        Ok((vec![6, 4, 1, 5], 1))
    );
    assert_eq!(
        marks_of("!if $(A) == 0|x|!endif|DEFINE A = 1|!if $(A) == 1|x|!endif"),
        Ok((vec![4, 1, 5, 6, 4, 1, 5], 2))
    );
    // In its own line the name still has what it had before.
    assert_eq!(
        marks_of("DEFINE A = $(A) + 1|DEFINE A = $(A) + 1|!if $(A) == 2|!endif"),
        Ok((vec![6, 6, 4, 5], 3))
    );
    assert!(holds("DEFINE A = $(A) * 2\n!if $(A) == 14"));
    assert!(holds("DEFINE S = $(S) == 'a'\n!if $(S)"));
}

#[test]
fn values_of_every_kind() {
    for (value, condition) in [
        ("0", "$(X) == 0"),
        ("18446744073709551615", "$(X) == 0xFFFFFFFFFFFFFFFF"),
        ("2", "$(X) + 1 == 3"),
        ("TRUE", "$(X)"),
        ("'a'", "$(X) == $(S)"),
        ("''", "$(X) == \"\""),
        ("L'ab'", "$(X) == L\"ab\""),
        ("L''", "$(X) < L'a'"),
        ("$(S)", "$(X) == 'a'"),
        ("$(W)", "$(X) == L'a'"),
        ("g.P", "$(X) == 3"),
        ("$(NOPE)", "$(X) == 0"),
        ("1 ? 'b' : 'c'", "$(X) == 'b'"),
        ("(1 | 2)", "$(X) == 3"),
        ("1 OR 0", "$(X) == 1"),
    ] {
        let file = format!("DEFINE X = {value}\n!if {condition}");
        assert!(holds(&file), "{file}");
    }
    // The kind goes with the value.
    assert_eq!(marks("DEFINE X = 'a'\n!if $(X) == 1\n!endif"), Err((10, 2)));
    assert_eq!(
        marks("DEFINE X = L'a'\n!if $(X) == 'a'\n!endif"),
        Err((10, 2))
    );
    assert_eq!(marks("DEFINE X = 'a'\n!if $(X)\n!endif"), Err((13, 2)));
    assert_eq!(marks("DEFINE X = 2\n!if $(X)\n!endif"), Err((13, 2)));
}

#[test]
fn a_string_holds_any_byte_but_line_ends() {
    for content in [&b"a\0"[..], b"\0", b"\xff\x80", b"#'|(", b" \t ", b"a\0\0b"] {
        for wide in [&b""[..], b"L"] {
            let string = [wide, b"\"", content, b"\""].concat();
            let file = [b"DEFINE X = ", &string[..], b"\n!if $(X) == ", &string].concat();
            let file = [&file[..], b"\n!endif"].concat();
            assert_eq!(marks_in(&file, &[]), Ok((vec![6, 4, 5], 1)));
        }
    }
    // A zero byte is a byte as any other, not the string's end.
    let file = b"DEFINE X = 'a\0'\nDEFINE Y = 'a'\n!if $(Y) < $(X)\n!endif";
    assert_eq!(marks_in(file, &[]), Ok((vec![6, 6, 4, 5], 1)));
}

#[test]
fn later_ones_override() {
    for (first, second, condition) in [
        ("1", "2", "$(X) == 2"),
        ("2", "1", "$(X) == 1"),
        ("1", "'a'", "$(X) == 'a'"),
        ("'aaaa'", "'b'", "$(X) == 'b'"),
        ("'b'", "'aaaa'", "$(X) == 'aaaa'"),
        ("'a'", "L'a'", "$(X) == L'a'"),
        ("L'a'", "0", "$(X) == 0"),
        ("1", "$(X) + 1", "$(X) == 2"),
    ] {
        let file = format!("DEFINE X = {first}\nDEFINE X = {second}\n!if {condition}");
        assert!(holds(&file), "{file}");
    }
    // Others keep what they have.
    assert!(holds(
        "DEFINE X = 1\nDEFINE Y = 2\nDEFINE X = 3\n!if $(X) * 10 + $(Y) == 32"
    ));
}

#[test]
fn they_win_over_the_table() {
    for (value, condition) in [
        ("1", "$(A) == 1"),
        ("0", "$(A) == 0"),
        ("'a'", "$(A) == 'a'"),
        ("L'a'", "$(A) == L'a'"),
    ] {
        let file = format!("!if $(A) == 7\nDEFINE A = {value}\n!endif\n!if {condition}");
        assert!(holds(&file), "{file}");
    }
    assert!(holds("DEFINE S = 5\n!if $(S) == 5"));
    assert!(holds("DEFINE W = $(S)\n!if $(W) == 'a'"));
    // The other settings of the table stay.
    assert!(holds("DEFINE A = 1\n!if $(S) == 'a' AND g.P == 3"));
}

#[test]
fn ifdef_and_ifndef() {
    let file = "!ifdef X|!endif|!ifndef X|!endif|DEFINE X = 0|!ifdef X|!endif|!ifndef X|!endif";
    assert_eq!(marks_of(file), Ok((vec![3, 5, 4, 5, 6, 4, 5, 3, 5], 0)));
    for value in ["0", "1", "''", "L''", "$(NOPE)", "$(X)"] {
        assert!(holds(&format!("DEFINE X = {value}\n!ifdef X")), "{value}");
        assert!(!holds(&format!("DEFINE X = {value}\n!ifndef X")), "{value}");
        assert!(!holds(&format!("DEFINE X = {value}\n!ifdef Y")), "{value}");
        // A name that the table has stays set.
        assert!(holds(&format!("DEFINE A = {value}\n!ifdef A")), "{value}");
        let file = format!("DEFINE X = {value}\n!ifdef $(X)");
        assert!(holds_in(Old, &file, &settings()), "{value}");
    }
    assert_eq!(
        marks_of("!ifndef X|DEFINE X = 1|!endif|!ifndef X|DEFINE X = 2|!endif|!if $(X)|!endif"),
        Ok((vec![4, 6, 5, 3, 0, 5, 4, 5], 0))
    );
}

#[test]
fn blanks_and_comments() {
    for line in [
        "DEFINE X=5",
        "DEFINE X =5",
        "DEFINE X= 5",
        "DEFINE X = 5",
        "DEFINE\tX\t=\t5\t",
        "  \t DEFINE \t X \t = \t 5",
        "DEFINE X=5#",
        "DEFINE X = 5 # = 6",
        "DEFINE X = 5#'",
        "DEFINE X =((5))",
    ] {
        assert!(holds(&format!("{line}\n!if $(X) == 5")), "{line}");
    }
    // A `#` ends the expression, but not inside quotes.
    assert!(holds("DEFINE X = '#' # '\n!if $(X) == '#'"));
}

/// Lines with the word `DEFINE` and another shape.
#[rustfmt::skip]
const MALFORMED: [&str; 52] = [
    "DEFINE", "DEFINE ", "DEFINE\t", "\tDEFINE", "DEFINE#", "DEFINE # c", "DEFINE=", "DEFINE =", "DEFINE = 1", "DEFINE=1", "DEFINE==",
    "DEFINE== 1", "DEFINE.x", "DEFINE.A = 1", "DEFINE\"", "DEFINE\"A\" = 1", "DEFINE'A' = 1", "DEFINE $(A) = 1", "DEFINE $(A)=1",
    "DEFINE$(A) = 1", "DEFINE (A) = 1", "DEFINE A", "DEFINE A ", "DEFINE A 1", "DEFINE A 1 = 1", "DEFINE A B = 1", "DEFINE A #= 1",
    "DEFINE A# = 1", "DEFINE #A = 1", "DEFINE A := 1", "DEFINE A += 1", "DEFINE A != 1", "DEFINE A ! = 1", "DEFINE a = 1", "DEFINE aA = 1",
    "DEFINE Aa = 1", "DEFINE A.b = 1", "DEFINE g.P = 1", "DEFINE 1 = 1", "DEFINE 1A = 1", "DEFINE _A = 1", "DEFINE A- = 1", "DEFINE A@= 1",
    "DEFINE \"A\" = 1", "DEFINE\x0bA = 1", "DEFINE \x0bA = 1", "DEFINE A\x0b= 1", "DEFINE\rA = 1", "DEFINE A\r = 1", "DEFINE \u{e9} = 1",
    "DEFINE A\u{e9} = 1", "DEFINE\u{e9} A = 1",
];

#[test]
fn other_shapes() {
    for line in MALFORMED {
        for front in ["", "x\n", "!if 1\n", "DEFINE A = 1\n", "!if 0\n!else\n"] {
            for end in ["\n", "\r\n", "\n!if @\n"] {
                let file = format!("{front}{line}{end}");
                let refusal = (Refusal::nowhere(22), front.lines().count() + 1);
                assert_eq!(
                    selected(file.as_bytes(), &settings()),
                    Err(refusal),
                    "{file:?}"
                );
            }
        }
        assert_eq!(after_define(line.as_bytes()).map(shape), Some(None));
    }
}

#[test]
fn other_words_are_plain() {
    for line in [
        "DEFINED",
        "DEFINED X = 1",
        "DEFINES",
        "DEFINE_ X = 1",
        "DEFINE_X = 1",
        "DEFINE1 X = 1",
        "DEFINEX = 1",
        "_DEFINE X = 1",
        "xDEFINE X = 1",
        "1DEFINE X = 1",
        "define X = 1",
        "Define X = 1",
        "DEFINe X = 1",
        "DEFIN X = 1",
        "DEF INE X = 1",
        "D",
        "",
        "#DEFINE X = 1",
        "# DEFINE X = 1",
        "\"DEFINE X = 1",
        ".DEFINE X = 1",
        "=DEFINE X = 1",
        "x DEFINE X = 1",
        "[Defines] DEFINE X = 1",
        "EDK_GLOBAL X = 1",
        "EDK_GLOBAL DEFINE X = 1",
        "X = 1",
        "\rDEFINE X = 1",
        "\x0bDEFINE X = 1",
        "\0DEFINE X = 1",
        "\u{feff}DEFINE X = 1",
        "!include DEFINE X = 1",
        "!error DEFINE X = 1",
        " !include",
    ] {
        let file = format!("{line}\n\t{line}\n!ifdef X\n!endif");
        let expected = Ok((vec![1, 1, 3, 5], 0));
        assert_eq!(marks_in(file.as_bytes(), &[]), expected, "{line:?}");
    }
    assert_eq!(marks("!DEFINE X = 1"), Err((18, 1)));
    assert_eq!(marks("!define X = 1"), Err((18, 1)));
}

#[test]
fn branches_that_are_not_taken() {
    let well_shaped = [
        "DEFINE A = 1",
        "DEFINE X = 1 / 0",
        "DEFINE X = @",
        "DEFINE X = 1 | 1",
        "DEFINE X = g.N",
        "DEFINE X =",
    ];
    for line in MALFORMED.iter().chain(&well_shaped) {
        for (front, back, expected) in [
            ("!if 0", "!endif", vec![3, 0, 5]),
            ("!if 1\n!else", "!endif", vec![4, 3, 0, 5]),
            ("!if 1\n!elif @", "!endif", vec![4, 2, 0, 5]),
            ("!if 0\n!elif 0", "!endif", vec![3, 3, 0, 5]),
            ("!if 0\n!if 1", "!endif\n!endif", vec![3, 2, 0, 2, 5]),
            (
                "!if 0\n!ifndef X\n!else",
                "!endif\n!endif",
                vec![3, 2, 2, 0, 2, 5],
            ),
        ] {
            let file = format!("{front}\n{line}\n{back}\n!ifdef X\n!endif\n!if $(A) == 7\n!endif");
            let expected = [expected, vec![3, 5, 4, 5]].concat();
            assert_eq!(marks(&file), Ok((expected, 1)), "{file:?}");
        }
    }
    // The length of a line is looked at everywhere.
    for front in ["", "!if 0\n"] {
        let line = front.lines().count() + 1;
        for text in ["DEFINE X = 1", "DEFINE"] {
            let long = format!("{front}{text}{}", " ".repeat(1_025 - text.len()));
            assert_eq!(marks(&long), Err((17, line)), "{front}{text}");
        }
    }
}

#[test]
fn branches_that_are_taken() {
    let file = "!if 1|DEFINE X = 1|!else|DEFINE X = 2|!endif|!if $(X) == 1|!endif";
    assert_eq!(marks_of(file), Ok((vec![4, 6, 3, 0, 5, 4, 5], 1)));
    let file = "!if 0|DEFINE X = 1|!elif 1|DEFINE X = 2|!endif|!if $(X) == 2|!endif";
    assert_eq!(marks_of(file), Ok((vec![3, 0, 4, 6, 5, 4, 5], 1)));
    // What a branch sets lasts when its group ends, and may decide the next
    // condition of its own group only if that is read, which it is not.
    let file =
        "DEFINE X = 1|!if $(X) == 1|DEFINE X = 2|!elif $(X) == 2|!else|!endif|!if $(X) == 2|!endif";
    assert_eq!(marks_of(file), Ok((vec![6, 4, 6, 2, 3, 5, 4, 5], 2)));
    let open = "!if 1|".repeat(16);
    let close = "|!endif".repeat(16);
    let file = format!("{open}DEFINE X = 1{close}|!ifdef X|!endif");
    let expected = [vec![4; 16], vec![6], vec![5; 16], vec![4, 5]].concat();
    assert_eq!(marks_of(&file), Ok((expected, 0)));
}

#[test]
fn refusals_of_the_expression() {
    for (number, marked) in [
        (3, "§@"),
        (3, "1 + §foo"),
        (3, "§'a"),
        (3, "1§.a"),
        (3, "§007"),
        (3, "1 §= 1"),
        (3, "§A"),
        (4, "1 + §18446744073709551616"),
        (7, "1 + §"),
        (7, "1 §1"),
        (7, "(1 ? 2§)"),
        (7, "1 +  §# c"),
        (8, "1 §| 1"),
        (8, "1 §|| 1"),
        (8, "(1 | 1) §|| 1 | 1"),
        (8, "g.N §| 'a'"),
        (9, "§g.N"),
        (9, "0 AND §g.N"),
        (10, "§-'a'"),
        (10, "0 AND (1 §+ 'a')"),
        (10, "$(S) §== 1"),
        (10, "$(W) §== $(S)"),
        (11, "5 §- 7"),
        (11, "1 §<< 64"),
        (12, "1 §/ 0"),
        (12, "1 §% $(NOPE)"),
        (12, "1 ? 1 §/ 0 : 0"),
    ] {
        refused_in_both(number, marked);
    }
    refused_in_both(5, &format!("{}1 §1", "!".repeat(199)));
    refused_in_both(6, &format!("{}§(1", "(".repeat(16)));
}

#[test]
fn editions() {
    // A bare word is a string in the old edition only.
    refused(New, 3, "$(S) == §a");
    refused(Old, 7, "$(S) == a §1");
    refused(Old, 10, "1 §== a");
    for (value, condition) in [("$(S) == a", "$(X) == 1"), ("'b' NE a AND 1", "$(X)")] {
        let file = format!("DEFINE X = {value}\n!if {condition}");
        assert!(holds_in(Old, &file, &settings()), "{file}");
    }
    // A bare word by itself is none in either.
    refused_in_both(3, "§foo");
}

#[test]
fn bars_in_parentheses_or_not() {
    for value in ["(1 | 0)", "(0 || 1)", "(0 | 0) OR (1 || 0)", "'|' == '|'"] {
        let file = format!("DEFINE X = {value}\n!if $(X) == 1");
        assert!(holds(&file), "{file}");
    }
    // In a condition with the same macro bars are free as before.
    assert!(holds("DEFINE X = 1\n!if 0 || $(X) == 1 | 0"));
    assert_eq!(marks("DEFINE X = 0 || 1"), Err((8, 1)));
    assert_eq!(marks("DEFINE X = 0 # || 1"), Ok((vec![6], 0)));
}

#[test]
fn operators_count() {
    assert_eq!(marks("DEFINE X = 1 + 2 * 3"), Ok((vec![6], 2)));
    assert_eq!(marks("DEFINE X = 0 AND 1 / 0"), Ok((vec![6], 1)));
    assert_eq!(marks("DEFINE X = 1 ? 'a' : 'b'"), Ok((vec![6], 1)));
    assert_eq!(marks("DEFINE X = (((1)))"), Ok((vec![6], 0)));
    let file = "DEFINE X = !!0|!if $(X) == 0|DEFINE X = 1 + 1|!else|DEFINE Y = 1 + 1 + 1|!endif|DEFINE X = -0";
    assert_eq!(marks_of(file), Ok((vec![6, 4, 6, 3, 0, 5, 6], 5)));
    // A value's own operators are not counted again where it is used.
    let file = "DEFINE X = 1 + 1 + 1|DEFINE Y = $(X)|!if $(Y) == $(X)|!endif";
    assert_eq!(marks_of(file), Ok((vec![6, 6, 4, 5], 3)));
    let many = format!("DEFINE X = {}0\n", "!".repeat(198)).repeat(300);
    assert_eq!(marks(&many), Ok((vec![6; 300], 198 * 300)));
}

#[test]
fn lengths_of_strings() {
    for len in [0, 1, 55, 56, 57, 58, 63, 64, 65, 255, 256, 257, 312, 400] {
        let content = "s".repeat(len);
        for string in [format!("'{content}'"), format!("L\"{content}\"")] {
            for value in [string.clone(), format!("1 ? {string} : {string}")] {
                let file = format!("DEFINE X = {value}\n!if $(X) == {string}");
                match len {
                    0..=56 => assert!(holds(&file), "{len}"),
                    _ => {
                        let refused = selected(file.as_bytes(), &settings());
                        assert_eq!(refused, Err((Refusal::nowhere(28), 1)), "{len}");
                    }
                }
            }
        }
        // Only the value's length counts.
        for (value, condition) in [
            (format!("0 ? '{content}' : ''"), "$(X) == ''"),
            (format!("'{content}' == '{content}'"), "$(X) == 1"),
            (format!("'a' # {content}"), "$(X) == 'a'"),
        ] {
            let file = format!("DEFINE X = {value}\n!if {condition}");
            assert!(holds(&file), "{len}");
        }
    }
    // A table's string always fits.
    let full = table(&[text("S", &"t".repeat(56)), wide("W", &"w".repeat(56))]);
    let file = b"DEFINE X = $(S)\nDEFINE Y = $(W)\n!if $(X) == $(S) AND $(Y) == $(W)\n!endif";
    assert_eq!(marks_in(file, &full), Ok((vec![6, 6, 4, 5], 3)));
}

/// `count` lines, each of which sets another macro.
fn different(count: usize) -> String {
    (0..count)
        .map(|index| format!("DEFINE M{index} = {index}\n"))
        .collect()
}

#[test]
fn numbers_of_names() {
    for count in [1, 63, 64] {
        assert_eq!(marks(&different(count)), Ok((vec![6; count], 0)));
    }
    for count in [65, 66, 100] {
        let refused = selected(different(count).as_bytes(), &settings());
        assert_eq!(refused, Err((Refusal::nowhere(27), 65)));
    }
    // All 64 have their values.
    for index in 0..64 {
        let file = format!("{}!if $(M{index}) == {index}", different(64));
        assert!(holds(&file), "{index}");
        assert!(holds(&format!("{}!ifdef M{index}", different(64))));
    }
    assert!(holds(&format!("{}!ifndef M64", different(64))));
}

#[test]
fn names_that_are_set_again_count_once() {
    let again: String = (0..64)
        .rev()
        .map(|index| format!("DEFINE M{index} = 'new'\n"))
        .collect();
    let file = format!(
        "{}{again}!if $(M63) == 'new' AND $(M0) == 'new'",
        different(64)
    );
    assert!(holds(&file));
    let same = "DEFINE X = $(X) + 1\n".repeat(100);
    assert!(holds(&format!("{same}!if $(X) == 100")));
    // Lines that are dropped or plain do not count.
    let dropped = format!("!if 0\n{}!endif\n{}", different(70), different(64));
    let expected = [vec![3], vec![0; 70], vec![5], vec![6; 64]].concat();
    assert_eq!(marks(&dropped), Ok((expected, 0)));
    let plain = different(70).replace("DEFINE", "DEFINED");
    let file = format!("{plain}{}", different(64));
    assert_eq!(marks(&file), Ok(([vec![1; 70], vec![6; 64]].concat(), 0)));
}

#[test]
fn lengths_of_names() {
    for len in [1, 2, 63, 64] {
        let name = "N".repeat(len);
        let file = format!("DEFINE {name}=5\n!if $({name}) == 5");
        assert!(holds(&file), "{len}");
        assert!(holds(&format!("DEFINE {name} = 5\n!ifdef {name}")), "{len}");
        // Longer and shorter names are others.
        for other in [len + 1, len - 1].map(|len| "N".repeat(len)) {
            if !other.is_empty() {
                assert!(holds(&format!("DEFINE {name} = 5\n!if $({other}) == 0")));
                assert!(holds(&format!("DEFINE {name} = 5\n!ifndef {other}")));
            }
        }
    }
    for len in [65, 66, 128, 500] {
        let file = format!("DEFINE {} = 5", "N".repeat(len));
        let refused = selected(file.as_bytes(), &settings());
        assert_eq!(refused, Err((Refusal::nowhere(22), 1)), "{len}");
    }
    // Names that differ in one byte, and names that are words elsewhere.
    for (one, other) in [("A_", "A"), ("A0", "A1"), ("AND", "OR"), ("DEFINE", "TRUE")] {
        let file = format!("DEFINE {one} = 1\nDEFINE {other} = 2\n!if $({one}) == 1");
        assert!(holds(&file), "{one} {other}");
        let file = format!("DEFINE {one} = 1\nDEFINE {other} = 2\n!if $({other}) == 2");
        assert!(holds(&file), "{one} {other}");
    }
}

#[test]
fn which_refusal_comes_first() {
    let full = different(64);
    let long = "s".repeat(57);
    let name = "N".repeat(65);
    for (number, line) in [
        (17, format!("DEFINE {name} = @ {}", " ".repeat(1_000))),
        (22, format!("DEFINE {name} = @")),
        (22, format!("DEFINE {name} = '{long}'")),
        (22, "DEFINE NEW 1".to_string()),
        (3, format!("DEFINE NEW = '{long}' @")),
        (7, "DEFINE NEW =".to_string()),
        (8, "DEFINE NEW = 1 | 1".to_string()),
        (9, format!("DEFINE NEW = 1 ? '{long}' : g.N")),
        (10, format!("DEFINE NEW = 1 ? '{long}' : 1")),
        (12, format!("DEFINE NEW = 1 / 0 ? '{long}' : ''")),
        (28, format!("DEFINE NEW = '{long}'")),
        (28, format!("DEFINE M0 = L'{long}'")),
        (27, "DEFINE NEW = 2".to_string()),
    ] {
        let file = format!("{full}{line}\n!if 1\n");
        assert_eq!(marks(&file), Err((number, 65)), "{line}");
    }
    // The first bad line decides, and an open group only after all lines.
    assert_eq!(marks("!if 1\nDEFINE X = @\nDEFINE"), Err((3, 2)));
    assert_eq!(marks("!if 1\nDEFINE\nDEFINE X = @"), Err((22, 2)));
    assert_eq!(marks("!if 1\nDEFINE X = 1"), Err((21, 1)));
    // Those of the whole call come before all lines.
    let mut marks = [7; 3];
    let answer = select(b"DEFINE\nDEFINE", &[0], &mut marks);
    assert_eq!(answer, Err((Refusal::nowhere(1), 0)));
    let answer = select(b"DEFINE\nDEFINE", &[], &mut marks[..1]);
    assert_eq!(answer, Err((Refusal::nowhere(16), 0)));
    assert_eq!(marks, [255; 3]);
}

#[test]
fn line_ends() {
    for end in ["\n", "\r\n"] {
        let file = format!("DEFINE X = 1{end}!if $(X){end}!endif{end}DEFINE Y = 'b'");
        assert_eq!(marks_in(file.as_bytes(), &[]), Ok((vec![6, 4, 5, 6], 0)));
    }
    // A CR that is no part of the end belongs to the expression.
    for file in ["DEFINE X = 1\r", "DEFINE X = 1\r\r\n"] {
        let refused = Err((Refusal::at(3, 12), 1));
        assert_eq!(selected(file.as_bytes(), &[]), refused, "{file:?}");
    }
    // A comment may hold it.
    assert_eq!(marks("DEFINE X = 1#\r"), Ok((vec![6], 0)));
    let long = format!("DEFINE X ={}1", " ".repeat(1_013));
    assert_eq!(marks(&long), Ok((vec![6], 0)));
    assert_eq!(marks(&format!("{long}\r\n")), Ok((vec![6], 0)));
    assert_eq!(marks(&format!("{long} \n")), Err((17, 1)));
}

#[test]
fn no_other_call_sees_them() {
    let refused = |expr: &[u8]| unplaced(evaluate(expr, &settings())).err();
    assert_eq!(refused(b"DEFINE X = 1"), Some(3));
    assert_eq!(number_in("$(A)", &settings()), Ok((7, 0)));
    // Each selection begins with the table alone.
    for _ in 0..2 {
        let file = "!ifdef X\n!endif\nDEFINE X = 1\nDEFINE A = 1";
        assert_eq!(marks(file), Ok((vec![3, 5, 6, 6], 0)));
    }
}

/// Reading A36: an expression without a token is 7, not a wrong shape.
#[test]
fn a36_no_expression() {
    for (file, place) in [
        ("DEFINE A =", 10),
        ("DEFINE A=", 9),
        ("DEFINE A =  ", 12),
        ("DEFINE A =\t\r\n", 11),
        ("DEFINE A = # c", 11),
        ("DEFINE A =#", 10),
        ("  DEFINE A =", 12),
    ] {
        let refused = Err((Refusal::at(7, place), 1));
        assert_eq!(selected(file.as_bytes(), &[]), refused, "{file:?}");
    }
}

/// Reading A37: 28 comes before 27.
#[test]
fn a37_a_long_string_for_a_65th_name() {
    for string in ["'s'", "L's'"] {
        let value = |len: usize| string.replace('s', &"s".repeat(len));
        for (len, number) in [(55, 27), (56, 27), (57, 28), (58, 28)] {
            let file = format!("{}DEFINE NEW = {}", different(64), value(len));
            assert_eq!(marks(&file), Err((number, 65)), "{len} {string}");
        }
    }
}

/// Reading A38: wide strings are counted by the bytes of the value.
#[test]
fn a38_wide_strings() {
    for (len, expected) in [
        (28, Ok((vec![6], 0))),
        (29, Ok((vec![6], 0))),
        (56, Ok((vec![6], 0))),
        (57, Err((28, 1))),
    ] {
        let file = format!("DEFINE X = L\"{}\"", "s".repeat(len));
        assert_eq!(marks(&file), expected, "{len}");
    }
}

/// Reading A39: only the names that DEFINE lines set are counted.
#[test]
fn a39_names_of_the_table() {
    let full = different(64);
    assert_eq!(marks(&format!("{full}DEFINE A = 1")), Err((27, 65)));
    assert!(holds(&format!("{full}DEFINE M5 = 1\n!if $(M5) == 1")));
    // As one of 64 it is as good as any other.
    assert!(holds(&format!(
        "{}DEFINE A = 1\n!if $(A) == 1",
        different(63)
    )));
    // 512 records in the table leave room for 64 more.
    let records: Vec<_> = (0..512)
        .map(|index| number(&format!("T{index:03}"), 1))
        .collect();
    let records = table(&records);
    let file = format!("{full}DEFINE M0 = $(T511)");
    assert_eq!(marks_in(file.as_bytes(), &records), Ok((vec![6; 65], 0)));
    let file = format!("{full}DEFINE T000 = 1");
    assert_eq!(marks_in(file.as_bytes(), &records), Err((27, 65)));
}

/// Reading A40: what is right behind the word does not change it.
#[test]
fn a40_the_word_and_what_follows_it() {
    for line in [
        "DEFINE.x",
        "DEFINE=1",
        "DEFINE\"",
        "DEFINE",
        "DEFINE $(A) = 1",
    ] {
        for edition in EDITIONS {
            let refused = Err((Refusal::nowhere(22), 1));
            assert_eq!(
                selected_in(edition, line.as_bytes(), &[]),
                refused,
                "{line}"
            );
        }
    }
    for (number, file, place) in [
        (3, "DEFINE A == 1", 10),
        (3, "DEFINE A==1", 9),
        (3, "DEFINE A = = 1", 11),
        // `==` is a token, but no expression begins with it.
        (7, "DEFINE A === 1", 10),
    ] {
        let refused = Err((Refusal::at(number, place), 1));
        assert_eq!(selected(file.as_bytes(), &[]), refused, "{file}");
    }
}

/// Reading A41: offsets are counted from the line's start.
#[test]
fn a41_offsets() {
    for (file, number, line, place) in [
        ("DEFINE A = 1 / 0", 12, 1, 13),
        ("\t DEFINE  A=1/0", 12, 1, 13),
        ("x\r\n  DEFINE A = @", 3, 2, 13),
        ("!if 1\nDEFINE A = 1 | 1\n!endif", 8, 2, 13),
    ] {
        let refused = Err((Refusal::at(number, place), line));
        assert_eq!(selected(file.as_bytes(), &[]), refused, "{file:?}");
    }
}

/// Reading A42: the value is settled at the DEFINE.
#[test]
fn a42_the_value_is_settled() {
    assert!(holds("DEFINE X = $(Y)\nDEFINE Y = 1\n!if $(X) == 0"));
    assert!(holds("DEFINE X = $(A)\nDEFINE A = 1\n!if $(X) == 7"));
    assert!(holds("DEFINE X = $(S)\nDEFINE S = 1\n!if $(X) == 'a'"));
    assert!(holds(
        "DEFINE X = 'old'\nDEFINE Y = $(X)\nDEFINE X = 'newer'\n!if $(Y) == 'old' AND $(X) == 'newer'"
    ));
    // So a name in its own expression is no ring, nor are two in each other's.
    assert!(holds(
        "DEFINE X = $(Y) + 1\nDEFINE Y = $(X) + 1\n!if $(X) * 10 + $(Y) == 12"
    ));
    // What is refused at the DEFINE is refused there, used or not.
    assert_eq!(marks("DEFINE X = 1 / $(Y)\nDEFINE Y = 1"), Err((12, 1)));
}

/// Reading A88: a PCD comes from the table alone.
#[test]
fn a88_pcds_are_never_set() {
    assert_eq!(marks("DEFINE g.N = 1"), Err((22, 1)));
    assert_eq!(
        marks("DEFINE P = 9\n!if g.P == 3\n!endif"),
        Ok((vec![6, 4, 5], 1))
    );
    assert_eq!(marks("DEFINE N = 9\n!if g.N == 9\n!endif"), Err((9, 2)));
    assert_eq!(marks("DEFINE X = 1\nDEFINE Y = X.X"), Err((9, 2)));
    assert_eq!(marks("DEFINE X = 1\n!if X.X\n!endif"), Err((9, 2)));
}
