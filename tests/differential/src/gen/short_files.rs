//! All short files of some forms.

use super::directives::{NEARLY_WORDS, RUBBISH, WORDS};

/// Lines of every form that affects other lines.
const LINES: [&str; 16] = [
    "x",
    "!if 0",
    "!if 1",
    "!if !@",
    "!ifdef A",
    "!ifndef A",
    "!ifdef $(A)",
    "!if 'a' == a",
    "!elseif 0 || 1",
    "!elif 0",
    "!elif @",
    "!else",
    "!else x",
    "!endif",
    "!endif x",
    "!foo",
];

/// Those of them that open, divide and close groups.
const BARE: [&str; 6] = ["!if 0", "!if 1", "!elif 1", "!else", "!endif", "x"];

/// Lines that set a macro and ask for it.
const DEFINES: [&str; 9] = [
    "DEFINE A = 1",
    "DEFINE B = $(A)",
    "DEFINE A = $(B) + 1",
    "DEFINE A",
    "!if $(A) == 1",
    "!ifdef B",
    "!elif $(B)",
    "!else",
    "!endif",
];

pub fn all() -> Vec<Vec<u8>> {
    let mut files = lists(&LINES, 4);
    files.extend(lists(&BARE, 6));
    files.extend(lists(&DEFINES, 5));
    files.extend(ends());
    files.extend(texts());
    files.extend(bytes());
    files
}

/// Every list of up to `max` of these lines.
fn lists(lines: &[&str], max: usize) -> Vec<Vec<u8>> {
    let mut files = vec![Vec::new()];
    let mut from = 0;
    for _ in 0..max {
        let to = files.len();
        for place in from..to {
            for line in lines {
                files.push([&files[place], line.as_bytes(), b"\n"].concat());
            }
        }
        from = to;
    }
    files
}

/// Every way for lines to end, with up to seven bytes of CR, LF and others,
/// by themselves and after directives.
fn ends() -> Vec<Vec<u8>> {
    let mut all: Vec<Vec<u8>> = vec![Vec::new()];
    let mut from = 0;
    for _ in 0..7 {
        let to = all.len();
        for place in from..to {
            for &byte in b"\r\nx" {
                all.push([&all[place][..], &[byte]].concat());
            }
        }
        from = to;
    }
    let mut files = all.clone();
    for end in all.iter().take_while(|end| end.len() < 5) {
        for (front, back) in [
            (&b"!if 1"[..], &b"!endif"[..]),
            (b"!if 1\n!else", b"!endif"),
            (b"!if 0\n!if 1", b"!endif\n!endif"),
            (b"!if 1\n!endif", b""),
            (b"!ifdef A", b"!endif"),
            (b"!include", b""),
        ] {
            files.push([front, end, back].concat());
        }
    }
    files
}

/// Every word with every text, read, after a taken branch, and in a dropped
/// one.
fn texts() -> Vec<Vec<u8>> {
    let mut files = Vec::new();
    for word in [WORDS, NEARLY_WORDS].concat() {
        for text in RUBBISH {
            for (front, back) in [
                ("", ""),
                ("", "!endif\n"),
                ("!if 1\n", "!endif\n"),
                ("!if 0\n", "!endif\n"),
                ("!if 0\n!if 1\n", "!endif\n!endif\n"),
                ("!if 1\n!else\n", "!endif\n"),
            ] {
                let line = [b"!", word.as_bytes(), *text, b"\n"].concat();
                files.push([front.as_bytes(), &line, back.as_bytes()].concat());
            }
        }
    }
    files
}

/// Every byte in the places where it can matter.
fn bytes() -> Vec<Vec<u8>> {
    let mut files = Vec::new();
    for byte in 0..=255u8 {
        for (front, back) in [
            (&b""[..], &b""[..]),
            (b"", b"!if 1\n!endif"),
            (b"!", b"if 1\n!endif"),
            (b"!i", b" 1\n!endif"),
            (b"!if", b"1\n!endif"),
            (b"!if", b" 1\n!endif"),
            (b"!if 1", b"\n!endif"),
            (b"!if 0\n!if", b"\n!endif\n!endif"),
            (b"!if 1\n!else", b"\n!endif"),
            (b"!if 1\n!else ", b"\n!endif"),
            (b"!if 1\n!endif", b"\n"),
            (b"!if 1\n!endif\t", b""),
            (b"!ifdef", b"A\n!endif"),
            (b"!ifdef ", b"\n!endif"),
            (b"!ifdef A", b"\n!endif"),
            (b"!ifdef $(A", b")\n!endif"),
            (b"!ifdef $(", b"A)\n!endif"),
            (b"!if 'a' ==", b"a\n!endif"),
            (b"!if 'a' == ", b"\n!endif"),
            (b"!if 'a' == a", b"\n!endif"),
            (b"!ifndef $", b"A)\n!endif"),
            (b"!ifndef $(A", b"\n!endif"),
            (b"!ifndef $(A)", b"\n!endif"),
            (b"!include", b"\n"),
            (b"!else", b""),
            (b"", b"DEFINE D = 1\n!ifdef D\n!endif"),
            (b"DEFINE", b"D = 1\n!ifdef D\n!endif"),
            (b"DEFINE", b" D = 1\n!ifdef D\n!endif"),
            (b"DEFIN", b" D = 1\n!ifdef D\n!endif"),
            (b"DEFINE ", b" = 1\n!ifdef D\n!endif"),
            (b"DEFINE ", b"D = 1\n!ifdef D\n!endif"),
            (b"DEFINE D", b"= 1\n!ifdef D\n!endif"),
            (b"DEFINE D ", b" 1\n!ifdef D\n!endif"),
            (b"DEFINE D =", b"1\n!ifdef D\n!endif"),
            (b"DEFINE D = ", b"\n!ifdef D\n!endif"),
            (b"DEFINE D = 1", b"\n!if $(D) == 1\n!endif"),
            (b"DEFINE D = '", b"'\n!if $(D) == '\0'\n!endif"),
            (b"!if 0\nDEFINE", b"D\n!endif\n!ifdef D\n!endif"),
        ] {
            files.push([front, &[byte], back].concat());
        }
    }
    files
}
