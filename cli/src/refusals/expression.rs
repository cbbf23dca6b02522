//! Refusals of expressions.

use std::ops::RangeInclusive;

use super::brief::MAX_COLUMNS;
use super::message::Message;
use super::values::stripped;
use super::{bad_token, grammar, kinds, names, results};
use crate::library::{refusal, Refusal, Terms};
use crate::terminal::{columns, escaped, Error};

/// The name that stands for an expression of the command line: no file has it by accident.
pub const NAME: &[u8] = b"<expression>";

/// The refusals that have a place.
pub const PLACED: RangeInclusive<u8> = refusal::TOKEN_BAD..=refusal::DIVISOR_ZERO;

/// The refusal of an expression by itself.
pub fn of_expression(expression: &[u8], terms: Terms, refusal: &Refusal) -> Error {
    let Refusal { number, offset, .. } = *refusal;
    let message = Message {
        name: NAME,
        line: 1,
        number,
        place: PLACED.contains(&number).then_some((expression, offset)),
        hint: hint(expression, terms, number, offset),
    };
    message.error()
}

/// What helps with the refusal of an expression, by itself or in a directive. The offset is counted from its start.
pub fn hint(expression: &[u8], terms: Terms, number: u8, offset: usize) -> Option<String> {
    match number {
        refusal::TOKEN_BAD => bad_token::no_token(expression, terms, offset),
        refusal::NO_DERIVATION => grammar::missing(expression, terms, offset),
        refusal::BAR_OUTSIDE => Some(bar(expression, terms)),
        refusal::PCD_MISSING => names::missing_pcd(expression, terms, offset),
        refusal::KINDS_UNSUITED => kinds::wrong_kinds(expression, terms, offset),
        refusal::RESULT_RANGE => results::out_of_range(expression, terms, offset),
        refusal::DIVISOR_ZERO => results::zero_divisor(expression, terms, offset),
        _ => None,
    }
}

/// Where the parentheses go that a bar needs.
fn bar(expression: &[u8], terms: Terms) -> String {
    let whole = escaped(stripped(expression, terms));
    match columns(&whole) {
        ..=MAX_COLUMNS => format!("put parentheses round the expression: `({whole})`"),
        _ => "put parentheses round the expression".into(),
    }
}
