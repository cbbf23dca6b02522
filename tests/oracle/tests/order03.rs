//! Where a refusal is (document 02, order 3, and the readings A4 and A27 to
//! A30). In the texts `§` stands before the byte that is to be named.

mod common;

use common::*;
use oracle::Refusal;

/// The text without its `§`, and where that was.
fn unmarked(marked: &str) -> (String, usize) {
    let place = marked.find('§').expect("a § in the text");
    let text = marked.replacen('§', "", 1);
    assert!(!text.contains('§'), "{marked}");
    (text, place)
}

/// The settings of most tests: `g.P` is there, `g.N` and others are not.
fn settings() -> Vec<u8> {
    table(&[
        number("A", 1),
        text("S", "a"),
        wide("W", "a"),
        number("g.P", 3),
        text("g.S", "a"),
    ])
}

/// Checks that an expression by itself and a field are refused with this
/// number at the `§`, and for 3 to 6 its tokens too.
fn alone(number: u8, marked: &str) {
    let (text, place) = unmarked(marked);
    let expr = text.as_bytes();
    let refusal = Refusal::at(number, place);
    assert_eq!(refusal.offset(), place);
    let settings = settings();
    assert_eq!(evaluate(expr, &settings).err(), Some(refusal), "{marked}");
    for datum in [0, 5, 255] {
        let written = field(expr, &settings, datum, &mut []);
        assert_eq!(written.err(), Some(refusal), "{marked}");
    }
    let scanned = scan(expr).refusal;
    assert_eq!(scanned, (number <= 6).then_some(refusal), "{marked}");
}

/// The same of conditions, whose place is counted from the line's start.
fn condition(number: u8, marked: &str) {
    let (text, place) = unmarked(marked);
    for (before, word) in [
        ("", "!if "),
        ("x\n\n", " \t !if\t"),
        ("!if 0\n", "!elseif "),
        ("!ifdef NOPE\r\n", "\t!elif  "),
    ] {
        for after in ["", "\n", "\r\n", "\n!endif\n", "\r\n!if @\n"] {
            let file = format!("{before}{word}{text}{after}");
            let line = 1 + before.lines().count();
            let refusal = Refusal::at(number, word.len() + place);
            assert_eq!(
                selected(file.as_bytes(), &settings()).err(),
                Some((refusal, line)),
                "{file:?}"
            );
        }
    }
}

/// Both.
fn everywhere(number: u8, marked: &str) {
    alone(number, marked);
    condition(number, marked);
}

/// Checks the refusal of a whole file. The line of the `§` is the refusal's.
fn in_file(number: u8, marked: &str) {
    let (file, place) = unmarked(marked);
    let start = file[..place].rfind('\n').map_or(0, |end| end + 1);
    let line = file[..start].lines().count() + 1;
    assert_eq!(
        selected(file.as_bytes(), &settings()).err(),
        Some((Refusal::at(number, place - start), line)),
        "{marked:?}"
    );
}

#[test]
fn bad_tokens() {
    for marked in [
        "§@",
        "  §@",
        "\t§@ @",
        "1 + §@",
        "1§@",
        "1 + §007",
        "1 + §0x",
        "1 + §0b1 + @",
        "1 + §12L",
        "(§abc)",
        "1 +§foo.1",
        "§a .b",
        "§Not 1",
        "1 §= 1",
        "§99999999999999999999x",
        "$(A) + §$(a)",
        "'a'§.b",
        "1 == §\u{e9}",
        "1 §\\ 2",
        "g.P§.x",
    ] {
        everywhere(3, marked);
    }
    alone(3, "1 + §\r\n1");
    alone(3, "1§\0");
    alone(3, "1 + §'a\nb'");
}

#[test]
fn strings_without_their_end() {
    for marked in ["§'", "§\"a", "'a' == §\"b'", "1 + §'a # b", "'a'§'"] {
        everywhere(3, marked);
    }
}

/// Reading A30.
#[test]
fn a30_wide_strings_and_macros_start_before_what_is_wrong() {
    for marked in [
        "§L'",
        "§L\"a",
        "L'a' == §L\"b'",
        "1 + §$(",
        "§$",
        "§$(A",
        "1 + §$(A + 1",
        "§$()",
        "§$( A)",
        "§$(A )",
        "$(A)§$(_)",
        "§$A",
    ] {
        everywhere(3, marked);
    }
}

/// Reading A4.
#[test]
fn a4_the_place_after_a_good_token() {
    for marked in ["1§.a", "a.b§.c", "AND§.1", "==§=", "  1§.5", "1 ==§= 1"] {
        everywhere(3, marked);
    }
    everywhere(3, "§a.1");
    everywhere(3, "1 + §a..b");
    let before = "+ ".repeat(199);
    for marked in ["1§.a", "a.b§.c", "AND§.1", "==§="] {
        everywhere(5, &format!("{before}{marked}"));
    }
    everywhere(3, &format!("{before}§a.1"));
}

#[test]
fn literals_that_are_too_large() {
    for marked in [
        "§18446744073709551616",
        "1 + §99999999999999999999 + @",
        "(§0x10000000000000000)",
        "\t§0X10000000000000000",
        "18446744073709551615 §18446744073709551616",
    ] {
        everywhere(4, marked);
    }
}

#[test]
fn what_follows_token_200() {
    let full = format!("{}0", "+".repeat(199));
    for tail in [
        " §1",
        " §1 1",
        "  \t§@",
        "§)",
        " §99999999999999999999",
        " §'",
        "§.",
        "§(#",
        "\t§a.b # c",
    ] {
        everywhere(5, &format!("{full}{tail}"));
    }
    // A comment after it is fine, and so are blanks.
    assert_eq!(number_of(&format!("{full} # @")), Ok((0, 199)));
    everywhere(5, &format!("{} §-", "- ".repeat(200).trim_end()));
}

#[test]
fn the_first_parenthesis_too_deep() {
    let open = |count| "(".repeat(count);
    everywhere(6, &format!("{}§(1", open(16)));
    everywhere(6, &format!("{}§({}", open(16), open(5)));
    everywhere(6, &format!("1 + {} + §( 1", "( ".repeat(16)));
    everywhere(6, &format!("{})) + ((§(1", open(16)));
    everywhere(6, &format!("{}§({}", open(16), ")".repeat(17)));
    // The macro's own bracket is no parenthesis.
    everywhere(6, &format!("{} $(A) §(", open(16)));
    // The difference is signed (A6).
    everywhere(6, &format!("{}{}§((1", ")".repeat(10), open(26)));
}

#[test]
fn the_first_token_that_nothing_can_save() {
    for marked in [
        "1 §2",
        "1 §1",
        "§*",
        "§)",
        "§:",
        "§? 1 : 2",
        "§== 1",
        "§AND 1",
        "1 + §* 2",
        "1 §~ 2",
        "1 §! 2",
        "1 §NOT 2",
        "1 §!",
        "1 + 2§)",
        "(1)§)",
        "(1 + 2) §(3)",
        "(§)",
        "(§) + 1",
        "1 §: 2",
        "1 ? 2 : 3 §: 4",
        "1 ? §: 2",
        "(1 ? 2§)",
        "(1 ? 2§) : 3",
        "1 ? (2 §: 3) : 4",
        "1 ? 2 : (3 §: 4)",
        "1 ? 2 : 3 ? 4§)",
        "1 ? 2 ? 3 : 4 : 5 §: 6",
        "'a' §'b'",
        "$(A)§$(A)",
        "g.P §g.P",
        "1 §TRUE",
        "- §* 1",
        "1 < §> 1",
        "1\t\t§2",
        "1 §2 3 4",
        "1 §2 (",
    ] {
        everywhere(7, marked);
    }
}

#[test]
fn signs_may_follow_any_operator() {
    // So the parser's levels do not matter: all of these are good beginnings.
    for operator in [
        "*", "/", "%", "+", "-", "<<", ">>", "<", "<=", "LT", "==", "NE", "&", "^", "&&", "and",
        "XOR", "OR", "?", ": ",
    ] {
        let before = if operator == ": " { "1 ? 1 " } else { "1 " };
        for sign in ["!", "NOT", "-", "+", "~"] {
            everywhere(7, &format!("{before}{operator} {sign} §* 1"));
            everywhere(7, &format!("{before}{operator} {sign}  §"));
        }
    }
}

#[test]
fn good_beginnings_end_at_the_length_or_the_comment() {
    for marked in [
        "1 +§",
        "1 + §",
        "(§",
        "((1)§",
        "1 ?§",
        "1 ? 2§",
        "1 ? 2 :\t §",
        "1 ? 2 ? 3 : 4 §",
        "(1 ? 2 : 3§",
        "-§",
        "NOT NOT§",
        "1 AND   §",
        "1 +§# 2",
        "1 + \t§# 2",
        "(1§#)",
        "§#",
        "  §# 1",
        "1 + '#' +§",
        "1 + '#' + §# '#'",
    ] {
        everywhere(7, marked);
    }
    everywhere(7, "§");
    everywhere(7, "  \t§");
}

/// Reading A27.
#[test]
fn a27_a_continuation_has_no_limits() {
    everywhere(7, &format!("{}§", "-".repeat(200)));
    everywhere(7, &format!("{}§", "(".repeat(16)));
    everywhere(7, &format!("{}§", "1 + ".repeat(100)));
    everywhere(7, &format!("{}(§", "-".repeat(199)));
    everywhere(7, &format!("{}§*", "-".repeat(199)));
    // An expression of 1,024 bytes, and a line of as many in the longest case.
    alone(7, &format!("1 +{}§", " ".repeat(1_021)));
    everywhere(7, &format!("1 +{}§", " ".repeat(1_013)));
}

/// Reading A28.
#[test]
fn a28_blanks_at_the_end_count() {
    let place = |expr: &str| evaluate(expr.as_bytes(), &[]).err();
    assert_eq!(place("1 +  "), Some(Refusal::at(7, 5)));
    assert_eq!(place("1 + #"), Some(Refusal::at(7, 4)));
    let selected = |file: &str| selected(file.as_bytes(), &[]).err();
    assert_eq!(selected("!if "), Some((Refusal::at(7, 4), 1)));
    assert_eq!(selected("!if \r\n"), Some((Refusal::at(7, 4), 1)));
    assert_eq!(selected(" !if\t\t # c"), Some((Refusal::at(7, 7), 1)));
}

#[test]
fn the_leftmost_bar_outside() {
    for marked in [
        "1 §| 2",
        "1 §|| 2",
        "1§||2|3",
        "1 §| 2 || 3",
        "(1 | 2) §| 3 | (4)",
        "((1 || 2) | 3) §|| 4",
        "1 ? 2 §| 3 : 4 | 5",
        "1 ? 2 : 3 §|| 4",
        "'|' == '|' §| 1",
        "1 OR 2 §|| 3",
        "\t1\t§|\t1",
        "1 §| 2 # |",
    ] {
        alone(8, marked);
    }
    let deep = format!("{}1 | 1{} §| 1", "(".repeat(16), ")".repeat(16));
    alone(8, &deep);
}

#[test]
fn the_leftmost_missing_pcd() {
    for marked in [
        "§g.N",
        "1 + §g.N",
        "g.P + §g.N + g.M",
        "0 AND §g.N",
        "1 ? 2 : §g.N + g.M",
        "0 ? §g.N : 1",
        "(1 || §g.N)",
        "§g.N ? g.M : g.O",
        "$(NOPE) +\t§NOPE.NOPE",
        "'g.N' == §g.N",
        "§g.PP",
        "g.P + §g.p",
    ] {
        everywhere(9, marked);
    }
    let long = format!("g.P == §x.{}", "x".repeat(63));
    everywhere(9, &long);
}

#[test]
fn the_operator_with_wrong_kinds() {
    for marked in [
        "§-'a'",
        "§! 'a'",
        "§NOT L'a'",
        "1 §+ 'a'",
        "'a' §* 1",
        "'a' §AND 'a'",
        "'a' §and 1",
        "1 §XOR 'a'",
        "'a' §OR 1",
        "1 §<< 'a'",
        "'a' §== 1",
        "'a' §NE L'a'",
        "L'a' §<= 'a'",
        "$(S) §LT $(A)",
        "$(W) §GE g.S",
        "'a' §? 1 : 2",
        "1 §? 'a' : 2",
        "1 §? L'a' : 'a'",
        "(1 §| 'a')",
        "('a' §|| 1)",
        "0 AND 'a' §- 1",
        "1 ? 2 : §~'a'",
        "g.S§+1",
    ] {
        everywhere(10, marked);
    }
}

#[test]
fn of_several_wrong_kinds_the_leftmost_with_none_inside() {
    for marked in [
        // The outer one is further left, but has a wrong one inside.
        "'a' + (§-'b')",
        "'a' + 1 * (§-'b')",
        "-('a' §+ 1)",
        "- - §-'a'",
        "!(§-'a') + 1",
        "'a' ? 1 : (1 §+ 'b')",
        "'a' ? (1 §+ 'b') : (2 + 'c')",
        "1 ? 'a' : (§-'b')",
        "'a' == (1 ? 2 §- 'b' : 3)",
        "(1 §? 'a' : 2) + 'b'",
        "(1 §? 'a' : 2) == (1 ? L'a' : 2)",
        "'a' + (1 §? 'a' : 2)",
        "L'a' == ('a' == §-'b')",
        // Two with none inside: the leftmost.
        "(1 §+ 'a') * (1 + 'b')",
        "(§-'a') + (1 ? 'b' : 2)",
        "(1 §? 'b' : 2) + (-'a')",
        "1 ? 2 §+ 'a' : 3 + 'b'",
        "1 + 2 == 3 + 4 AND 'a' §< 1 OR 'b' > 1",
        "0 AND (1 §+ 'a') OR ('b' + 1)",
        // Groups to the left, so the second operator has the first inside.
        "'a' §+ 'b' + 'c'",
        "1 + 'b' §* 2 + 3",
        "'a' == 'b' §== 'c'",
        "'a' §== 1 == 'c'",
        // Groups to the right, so the first choice has the second inside.
        "'a' ? 1 : 'b' §? 1 : 2",
        "1 ? 2 : 3 §? 'a' : 4",
        "1 ? 'a' §? 1 : 2 : 'x'",
        // A choice's kind is that of its arms, right or skipped.
        "(1 ? 'a' : 'b') §+ 1",
        "(0 ? 'a' : 'b') §== 1",
        "(1 ? 2 : 3) + 1 §+ 'a'",
    ] {
        everywhere(10, marked);
    }
}

#[test]
fn the_operator_whose_result_is_out_of_range() {
    for marked in [
        "5 §- 7",
        "§-1",
        "§- 1 + 1",
        "1 §<< 64",
        "18446744073709551615 §+ 1",
        "0x8000000000000000\t§*\t2",
        "1 + (2 §- 3)",
        "-(0) §- 1",
        "- §-1",
        "~0 §+ 1",
        "1 + 2 §- 4",
        "3 §<< 63",
        "1 ? 5 §- 7 : 0",
        "1 AND 5 §- 7",
        "0 OR 5 §- 7 == 1",
        "$(A) §- g.P",
    ] {
        everywhere(11, marked);
    }
}

#[test]
fn the_operator_that_divides_by_zero() {
    for marked in [
        "1 §/ 0",
        "1 §% 0",
        "0 §/ $(NOPE)",
        "1 + 2 * 3 §/ (4 - 4)",
        "1 §/ (1 - 1) / 0",
        "(1 §/ 0) % 0",
        "0 ? 1 / 0 : 2 §% 0",
    ] {
        everywhere(12, marked);
    }
}

#[test]
fn what_evaluation_meets_first() {
    for (number, marked) in [
        // Left before right, operands before their operator.
        (11, "(5 §- 7) + 1 / 0"),
        (12, "(1 §/ 0) + (5 - 7)"),
        (11, "(1 §- 2) / (1 / 0)"),
        (12, "1 - (2 §/ 0)"),
        (11, "-(5 §- 7)"),
        (12, "(5 + 1 §/ 0) - (1 - 2)"),
        (12, "1 - 2 * (3 §% 0)"),
        (11, "1 §- 2 - (3 % 0)"),
        (11, "1 §- 2 == 3 % 0"),
        (12, "1 == (3 §% 0) + (1 - 2)"),
        // Skipped operands are not met.
        (12, "(0 AND 5 - 7) + 1 §/ 0"),
        (11, "(0 AND 1 / 0) §- 1"),
        (11, "(1 OR 1 / 0) + (0 §- 1)"),
        (12, "(0 OR 1 §/ 0) + (0 - 1)"),
        (12, "1 AND 2 §/ 0 AND 5 - 7"),
        (11, "(0 AND 1/0) OR 5 §- 7"),
        // `XOR` skips nothing.
        (12, "0 XOR 1 §/ 0"),
        (12, "1 XOR 1 §/ 0"),
        // Nor is the other arm, and the test comes first.
        (11, "1 ? 5 §- 7 : 1 / 0"),
        (12, "0 ? 5 - 7 : 1 §/ 0"),
        (12, "1 §/ 0 ? 5 - 7 : 1"),
        (11, "0 ? 1 / 0 : 1 ? 2 §- 3 : 1 / 0"),
        (12, "(1 ? 2 : 1 / 0) §/ 0"),
        (11, "(0 ? 1 / 0 : 2) §- 3"),
    ] {
        everywhere(number, marked);
    }
    condition(12, "0 || 1 §/ 0");
    condition(11, "1 | 5 §- 7");
    condition(11, "0 | 5 §- 7 | 1 / 0");
}

/// Each expression has several of the refusals, and the one that is given has
/// its own place, whatever is wrong further left.
#[test]
fn competing_refusals() {
    let deep = "(".repeat(17);
    for (number, marked) in [
        (3, "§@ 99999999999999999999".to_string()),
        (4, "§99999999999999999999 @".to_string()),
        (3, format!("{deep} §@")),
        (4, format!("{deep} §99999999999999999999")),
        (5, format!("{deep}{} §1", " 1".repeat(183))),
        (3, format!("1 1 {} §@ 1 1 1", "1 ".repeat(190))),
        (
            4,
            format!("1 1 {} §99999999999999999999 1 1 @", "1 ".repeat(190)),
        ),
        (3, "1 1 | g.N + 'a' / 0 §@".to_string()),
        (4, "1 1 | g.N + 'a' / 0 §99999999999999999999".to_string()),
        (5, format!("{}§*", "* ".repeat(200))),
        (6, format!(") 1 1 | g.N - 'a' {}§(1", "(".repeat(17))),
        (6, format!("* {}§(", "(".repeat(16))),
        (7, "1 | g.N + 'a' §)".to_string()),
        (7, "1 || g.N - 'a' +§".to_string()),
        (7, "1 - 2 §1".to_string()),
        (7, "5 - 7 §)".to_string()),
        (7, "1 / 0 §1".to_string()),
        (9, "'a' + 1 - 2 + §g.N".to_string()),
        (9, "5 - 7 + 1 / 0 + -§g.N".to_string()),
        (10, "5 - 7 + 1 / 0 §+ 'a'".to_string()),
        (10, "(1 / 0) * (§-'a')".to_string()),
        (10, "1 ? 1 / 0 : 'a' §+ 1".to_string()),
    ] {
        everywhere(number, &marked);
    }
    for (number, marked) in [
        (8, "g.N §| 1"),
        (8, "'a' + g.N §|| 1"),
        (8, "-'a' §| g.N"),
        (8, "1 / 0 §| 1"),
        (8, "5 - 7 §|| 1"),
        (7, "1 | 2 §3"),
        (7, "1 | 2 |§"),
        (3, "1 | 2 || §@"),
        (4, "1 | 2 || §99999999999999999999"),
    ] {
        alone(number, marked);
    }
    // A condition allows the bar, so what comes after 8 is given.
    condition(9, "'a' | §g.N");
    condition(10, "1 / 0 | (§-'a')");
    condition(12, "1 §/ 0 | 1");
}

#[test]
fn refusals_without_a_place() {
    let nowhere = |number| Some(Refusal::nowhere(number));
    assert_eq!(Refusal::nowhere(13).offset(), 0);
    let long = format!("@{}", " ".repeat(1_024));
    assert_eq!(evaluate(b" @", &[0]).err(), nowhere(1));
    assert_eq!(evaluate(long.as_bytes(), &[]).err(), nowhere(2));
    assert_eq!(scan(long.as_bytes()).refusal, nowhere(2));
    assert_eq!(field(b" @", &[0], 9, &mut []).err(), nowhere(1));
    assert_eq!(field(long.as_bytes(), &[], 9, &mut []).err(), nowhere(2));
    assert_eq!(field(b" 1", &[], 6, &mut []).err(), nowhere(23));
    assert_eq!(field(b" 1", &[], 0, &mut []).err(), nowhere(24));
    assert_eq!(field(b" 2", &[], 1, &mut []).err(), nowhere(25));
    assert_eq!(field(b" 1", &[], 1, &mut []).err(), nowhere(26));
}

/// Reading A29, as far as there are such refusals.
#[test]
fn a29_lines_refused_without_a_place() {
    let open = "!if 1\n".repeat(16);
    let long = format!("  !if {}", " ".repeat(1_024));
    for (number, line, file) in [
        (13, 1, "  !if 1 + 1"),
        (13, 1, "!if 'a'"),
        (13, 2, "!if 0\n\t!elseif  2"),
        (17, 2, &format!("x\n{long}\n")),
        (18, 1, "  !iff 1"),
        (19, 1, "  !elseif @"),
        (19, 1, "\t!endif"),
        (20, 17, &format!("{open} !if @")),
        (21, 1, "  !if 1"),
        (22, 1, "  !if(1)"),
        (22, 1, "  !ifdef 1"),
        (22, 1, "  !ifdef A @"),
        (22, 1, "\t!ifdef $(A"),
        (22, 1, "!ifndef $( A)"),
        (22, 1, "!ifdef A || B"),
        (22, 1, "!ifndef"),
        (22, 2, "!if 1\n !else @"),
        (22, 2, "!if 1\n !endif \r"),
    ] {
        let refusal = (Refusal::nowhere(number), line);
        let given = selected(file.as_bytes(), &settings());
        assert_eq!(given.err(), Some(refusal), "{file:?}");
    }
    let mut marks = [0; 1];
    for (number, file, table) in [
        (1, &b" !if @"[..], &b"x"[..]),
        (14, &[b' '; 65_537], b""),
        (15, &[b'\n'; 4_097], b""),
        (16, b" !if @\n\n", b""),
    ] {
        let given = select(file, table, &mut marks);
        assert_eq!(given, Err((Refusal::nowhere(number), 0)));
    }
}

#[test]
fn the_lines_start_and_nothing_else_is_counted_from() {
    for (number, marked) in [
        (3, "!if §@"),
        (3, "!if\t§@"),
        (3, "    !if 1 == §@"),
        (3, "\t\t!if\t\t\t§@"),
        (3, "x\r\n\r\n  !if §@\r\n"),
        (3, "!if 1\n!endif\n \t!if §@ 1"),
        (7, "!if 0\n  !elseif 1 §1\n"),
        (7, "!if 0\r\n  !elif 1 +\t§\r\n!endif"),
        (7, "!if 0\n!elif §# 1\n"),
        (9, "!ifdef NOPE\n!elseif 1 ==\t§g.N"),
        (10, "!if 1\n  !if 'a' §== 1\n"),
        (11, "!if 1\n!if 0\n!elif 1 §- 2\n"),
        (12, "!if 1 §/ 0\n!if @\n"),
        (12, "!include @\n!error @\n!if 1 §% 0"),
        // What is not read is not refused.
        (3, "!if 0\n!if @\n!elseif @\n!endif\n!elseif §@"),
        (3, "!if 1\n!elseif @\n!else\n!if @\n!endif\n!endif\n!if §$"),
        // A CR without its LF is the line's own byte.
        (3, "!if 1§\r"),
        (3, "!if 1 +§\r\r\n"),
        (3, "!if 1 §\r \n"),
        (7, "!if 1 +§\r\n"),
    ] {
        in_file(number, marked);
    }
}

#[test]
fn long_lines() {
    // 1,024 bytes with all that is before the argument.
    for before in ["!if ", "    !if\t", "!if 0\n!elseif ", "x\n\t !if "] {
        let word = before.len() - before.rfind('\n').map_or(0, |end| end + 1);
        let room = 1_024 - word;
        in_file(7, &format!("{before}1{}+§", " ".repeat(room - 2)));
        in_file(7, &format!("{before}1{}+§\r\n", " ".repeat(room - 2)));
        in_file(7, &format!("{before}1{}§2\r\n", " ".repeat(room - 2)));
        in_file(7, &format!("{before}1 + {}§", " ".repeat(room - 4)));
        in_file(7, &format!("{before}1 +§#{}", "@".repeat(room - 4)));
        in_file(3, &format!("{before}{}§@\n", "\t".repeat(room - 1)));
        in_file(3, &format!("{before}1 + §'{}\n", "x".repeat(room - 5)));
        in_file(12, &format!("{before}1{}§/0", " ".repeat(room - 3)));
    }
    let tabs = "\t".repeat(1_016);
    in_file(10, &format!("{tabs}!if §-''"));
    in_file(3, &format!("{tabs} !if  1§'"));
}
