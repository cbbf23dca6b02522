//! Small things that the tests share.
#![allow(dead_code)]

use std::fmt::Debug;

use oracle::selection::Selection;
use oracle::tokens::{code, Token};
use oracle::{Answer, Edition, Refusal, Scan, Value, EDITIONS};

// Most answers are the same in both editions. These calls make sure of it; a
// test of an answer that is not names its edition.

fn agreed<T: Debug + PartialEq>(input: &[u8], answer: impl Fn(Edition) -> T) -> T {
    let [new, old] = EDITIONS.map(answer);
    assert_eq!(new, old, "new, old: {}", input.escape_ascii());
    new
}

pub fn scan(expr: &[u8]) -> Scan {
    agreed(expr, |edition| oracle::scan(expr, edition))
}

pub fn evaluate<'a>(expr: &'a [u8], table: &'a [u8]) -> Answer<'a> {
    agreed(expr, |edition| oracle::evaluate(expr, table, edition))
}

pub fn field(expr: &[u8], table: &[u8], datum: u8, buf: &mut [u8]) -> Result<usize, Refusal> {
    let (result, written) = agreed(expr, |edition| {
        let mut buf = buf.to_vec();
        let result = oracle::field(expr, table, datum, edition, &mut buf);
        (result, buf)
    });
    buf.copy_from_slice(&written);
    result
}

pub fn select(file: &[u8], table: &[u8], marks: &mut [u8]) -> Selection {
    let (result, marked) = agreed(file, |edition| {
        let mut marks = marks.to_vec();
        let result = oracle::select(file, table, edition, &mut marks);
        (result, marks)
    });
    marks.copy_from_slice(&marked);
    result
}

/// A record with its fields at the places document 01 gives them.
pub fn record(name: &[u8], kind: u8, content: &[u8]) -> [u8; 128] {
    let mut record = [0; 128];
    record[..name.len()].copy_from_slice(name);
    record[64] = kind;
    record[65] = content.len() as u8;
    record[72..72 + content.len()].copy_from_slice(content);
    record
}

pub fn number(name: &str, value: u64) -> [u8; 128] {
    record(name.as_bytes(), 0, &value.to_le_bytes())
}

pub fn text(name: &str, content: &str) -> [u8; 128] {
    record(name.as_bytes(), 1, content.as_bytes())
}

pub fn wide(name: &str, content: &str) -> [u8; 128] {
    record(name.as_bytes(), 2, content.as_bytes())
}

/// The records put in order of their names.
pub fn table(records: &[[u8; 128]]) -> Vec<u8> {
    let mut records = records.to_vec();
    records.sort();
    records.concat()
}

/// An answer whose refusal is its number alone.
pub fn unplaced<T>(answer: Result<T, Refusal>) -> Result<T, u8> {
    answer.map_err(|refusal| refusal.number)
}

/// The number and count of an expression, or its refusal.
pub fn number_in(expr: &str, table: &[u8]) -> Result<(u64, u64), u8> {
    unplaced(evaluate(expr.as_bytes(), table)).map(|outcome| match outcome.value {
        Value::Number(number) => (number, outcome.count),
        other => panic!("{expr}: a number was expected, not {other:?}"),
    })
}

pub fn number_of(expr: &str) -> Result<(u64, u64), u8> {
    number_in(expr, &[])
}

/// The value alone.
pub fn value_of(expr: &str) -> Result<u64, u8> {
    number_of(expr).map(|(number, _)| number)
}

pub fn refusal_of(expr: &[u8]) -> Option<u8> {
    unplaced(evaluate(expr, &[])).err()
}

/// Marks and count of a file, or refusal number and line.
pub fn marks_in(file: &[u8], table: &[u8]) -> Result<(Vec<u8>, u64), (u8, usize)> {
    selected(file, table).map_err(|(refusal, line)| (refusal.number, line))
}

/// Marks and count of a file, or refusal and line.
pub type Selected = Result<(Vec<u8>, u64), (Refusal, usize)>;

pub fn selected(file: &[u8], table: &[u8]) -> Selected {
    agreed(file, |edition| selected_in(edition, file, table))
}

/// In one edition. Checks on the way that the marks are treated as they must be.
pub fn selected_in(edition: Edition, file: &[u8], table: &[u8]) -> Selected {
    let mut marks = vec![77; 4_096 + 3];
    match oracle::select(file, table, edition, &mut marks) {
        Ok((lines, count)) => {
            assert!(marks[lines..].iter().all(|&mark| mark == 77));
            marks.truncate(lines);
            Ok((marks, count))
        }
        Err(refusal) => {
            assert!(marks.iter().all(|&mark| mark == 255));
            Err(refusal)
        }
    }
}

/// As above for a file written with `|` for each LF between its lines.
pub fn marks_of(file: &str) -> Result<(Vec<u8>, u64), (u8, usize)> {
    marks_in(file.replace('|', "\n").as_bytes(), &[])
}

/// Tokens of these codes; where they are does not matter.
pub fn tokens(codes: &[u8]) -> Vec<Token> {
    let token = |&code: &u8| Token {
        code,
        start: 0,
        len: 0,
        value: 0,
    };
    codes.iter().map(token).collect()
}

/// splitmix64, so that the random tests are the same everywhere.
pub struct Prng(pub u64);

impl Prng {
    pub fn next(&mut self) -> u64 {
        self.0 = self.0.wrapping_add(0x9e37_79b9_7f4a_7c15);
        let mut mixed = self.0;
        mixed = (mixed ^ (mixed >> 30)).wrapping_mul(0xbf58_476d_1ce4_e5b9);
        mixed = (mixed ^ (mixed >> 27)).wrapping_mul(0x94d0_49bb_1331_11eb);
        mixed ^ (mixed >> 31)
    }

    pub fn below(&mut self, limit: usize) -> usize {
        (self.next() % limit as u64) as usize
    }

    pub fn pick<T: Copy>(&mut self, items: &[T]) -> T {
        items[self.below(items.len())]
    }
}

/// The binary operators level by level, from level 2 to level 12.
pub const OPERATORS: [&[u8]; 11] = [
    &[code::TIMES, code::DIVIDE, code::REMAINDER],
    &[code::PLUS, code::MINUS],
    &[code::SHIFT_LEFT, code::SHIFT_RIGHT],
    &[
        code::LESS,
        code::LESS_EQUAL,
        code::GREATER,
        code::GREATER_EQUAL,
    ],
    &[code::EQUAL, code::UNEQUAL],
    &[code::BIT_AND],
    &[code::BIT_XOR],
    &[code::BIT_OR],
    &[code::AND],
    &[code::XOR],
    &[code::OR, code::OR_BARS],
];
