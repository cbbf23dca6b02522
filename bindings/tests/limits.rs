//! The limits are the library's: what is at a limit is not refused for it, and what is one past it is.

use bindings::limit::*;
use bindings::{datum, edition, evaluate, field, kind, lookup, refusal, select, table};

/// A record with a string; its content may be longer than a record has room for.
fn record(name: &[u8], content: &[u8]) -> Vec<u8> {
    let mut bytes = name.to_vec();
    bytes.resize(64, 0);
    bytes.extend([kind::STRING as u8, content.len() as u8, 0, 0, 0, 0, 0, 0]);
    bytes.extend(content);
    bytes.resize(RECORD_BYTES.max(bytes.len()), 0);
    bytes
}

fn table_of(records: usize) -> Vec<u8> {
    let names = (0..records).map(|each| format!("A{each:04}"));
    names
        .flat_map(|name| record(name.as_bytes(), b""))
        .collect()
}

#[test]
fn records() {
    assert_eq!(table(&table_of(MAX_RECORDS)), 0);
    assert_eq!(table(&table_of(MAX_RECORDS + 1)), refusal::TABLE_MALFORMED);
}

#[test]
fn bytes_of_a_record() {
    let content = |len| record(b"A", &vec![b'x'; len]);
    assert_eq!(table(&content(MAX_CONTENT_BYTES)), 0);
    assert_eq!(content(MAX_CONTENT_BYTES).len(), RECORD_BYTES);
    assert_eq!(
        table(&content(MAX_CONTENT_BYTES + 1)[..RECORD_BYTES]),
        refusal::TABLE_MALFORMED
    );
}

#[test]
fn bytes_of_a_name() {
    let name = vec![b'A'; MAX_NAME_BYTES];
    let named = record(&name, b"x");
    let mut found = [0; 3];
    assert_eq!(lookup(&named, &name, &mut found), 0);
    assert_eq!(found, [kind::STRING, 72, 1]);
    // The byte after the longest name is the kind already.
    assert_eq!(named[MAX_NAME_BYTES], kind::STRING as u8);
}

/// The refusal of an expression. Blanks, plus signs and open parentheses alone form none.
fn refused(byte: u8, count: usize) -> u8 {
    evaluate(&vec![byte; count], b"", edition::OLD, &mut [0; 7])
}

#[test]
fn expressions() {
    for (byte, limit, past) in [
        (b' ', MAX_EXPRESSION_BYTES, refusal::EXPRESSION_LONG),
        (b'+', MAX_TOKENS, refusal::TOKENS_MANY),
        (b'(', MAX_PARENTHESES, refusal::PARENTHESES_DEEP),
    ] {
        assert_eq!(refused(byte, limit), refusal::NO_DERIVATION, "{limit}");
        assert_eq!(refused(byte, limit + 1), past, "{limit} and 1");
    }
}

#[test]
fn bytes_of_a_field() {
    let string = "x".repeat(MAX_EXPRESSION_BYTES - "L''".len());
    let expression = format!("L'{string}'");
    let mut buffer = [0; MAX_FIELD_BYTES];
    let mut out = [0; 2];
    let mut encode = |room| {
        field(
            &mut buffer[..room],
            expression.as_bytes(),
            b"",
            datum::VOID,
            edition::OLD,
            &mut out,
        )
    };
    assert_eq!(encode(MAX_FIELD_BYTES - 1), refusal::BUFFER_SHORT);
    assert_eq!(encode(MAX_FIELD_BYTES), 0);
    assert_eq!(out, [MAX_FIELD_BYTES as u64, 0]);
}

/// A file of so many bytes, in short lines.
fn file_of_bytes(count: usize) -> Vec<u8> {
    let end_of_line = |at: usize| at % 64 == 63;
    (0..count)
        .map(|at| if end_of_line(at) { b'\n' } else { b'x' })
        .collect()
}

fn file_of_lines(count: usize) -> Vec<u8> {
    b"\n".repeat(count)
}

fn line_of_bytes(count: usize) -> Vec<u8> {
    b"x".repeat(count)
}

fn groups_of_depth(depth: usize) -> Vec<u8> {
    [b"!if 1\n".repeat(depth), b"!endif\n".repeat(depth)].concat()
}

/// A line for each of so many macros.
fn defined_macros(count: usize) -> Vec<u8> {
    let lines = (0..count).map(|each| format!("DEFINE A{each} = {each}\n"));
    lines.collect::<String>().into_bytes()
}

fn defined_string(bytes: usize) -> Vec<u8> {
    format!("DEFINE A = '{}'", "x".repeat(bytes)).into_bytes()
}

fn defined_wide(bytes: usize) -> Vec<u8> {
    format!("DEFINE A = L'{}'", "x".repeat(bytes)).into_bytes()
}

fn defined_name(bytes: usize) -> Vec<u8> {
    format!("DEFINE {} = 1", "A".repeat(bytes)).into_bytes()
}

fn selected(file: &[u8]) -> u8 {
    select(
        &mut [0; MAX_LINES + 1],
        file,
        b"",
        edition::OLD,
        &mut [0; 4],
    )
}

#[test]
fn files() {
    type Made = fn(usize) -> Vec<u8>;
    let limits: [(Made, usize, u8); 8] = [
        (file_of_bytes, MAX_FILE_BYTES, refusal::FILE_LONG),
        (file_of_lines, MAX_LINES, refusal::LINES_MANY),
        (line_of_bytes, MAX_LINE_BYTES, refusal::LINE_LONG),
        (groups_of_depth, MAX_GROUPS, refusal::NESTING_DEEP),
        (defined_macros, MAX_DEFINED, refusal::DEFINED_MANY),
        (defined_string, MAX_CONTENT_BYTES, refusal::DEFINED_LONG),
        (defined_wide, MAX_CONTENT_BYTES, refusal::DEFINED_LONG),
        (defined_name, MAX_NAME_BYTES, refusal::TEXT_MALFORMED),
    ];
    for (made, limit, past) in limits {
        assert_eq!(selected(&made(limit)), 0, "{limit}");
        assert_eq!(selected(&made(limit + 1)), past, "{limit} and 1");
    }
}
