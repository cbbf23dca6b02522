//! Operands of wrong kinds (10).

use super::brief::brief;
use super::meant::meant;
use super::names::unset;
use super::operands::{operation, Operation};
use crate::library::{self, token, Terms};
use crate::terminal::escaped;

const NUMBER: &str = "a number";

/// Each kind, with a literal of that kind.
const KINDS: [(&str, &str); 3] = [
    (NUMBER, "0"),
    ("a string", "\"\""),
    ("a wide string", "L\"\""),
];

/// What the operator takes and what it has.
pub fn wrong_kinds(expression: &[u8], terms: Terms, offset: usize) -> Option<String> {
    let Operation {
        code,
        spelling,
        operands,
        bare_word,
    } = operation(expression, terms, offset)?;
    let kinds = operands.iter().map(|operand| kind(operand, terms));
    let kinds = kinds.collect::<Option<Vec<&str>>>()?;
    let (taken, found) = match (code, kinds.as_slice()) {
        (token::QUESTION, [test, ..]) if *test != NUMBER => ("a number before it", &kinds[..1]),
        (token::QUESTION, [_, arms @ ..]) => ("two of one kind to choose from", arms),
        (token::LESS..=token::NOT_EQUAL, _) => ("two of one kind", kinds.as_slice()),
        (_, [_]) => (NUMBER, kinds.as_slice()),
        _ => ("two numbers", kinds.as_slice()),
    };
    let (operator, found) = (escaped(spelling), found.join(" and "));
    let unset = unset(&operands, terms);
    let bare = bare_word.map(|word| bare(word, terms)).unwrap_or_default();
    Some(format!(
        "`{operator}` takes {taken}, and has {found}{unset}{bare}"
    ))
}

/// What is said of a bare word among the operands.
fn bare(word: &[u8], terms: Terms) -> String {
    let meant = meant(word, terms);
    format!("; the bare word `{}` is a string{meant}", brief(word))
}

/// The kind of an operand: the library accepts it beside a literal of that kind, in a choice that does not evaluate it.
fn kind(operand: &[u8], terms: Terms) -> Option<&'static str> {
    let is_beside = |literal: &str| {
        let choice = [b"0 ? (", operand, b") : ", literal.as_bytes()].concat();
        library::evaluate(&choice, terms).is_ok()
    };
    let mut kinds = KINDS.into_iter();
    let found = kinds.find(|(_, literal)| is_beside(literal));
    found.map(|(kind, _)| kind)
}
