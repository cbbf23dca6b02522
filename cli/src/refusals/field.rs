//! Refusals of data fields.

use super::expression::{of_expression, NAME};
use super::message::Message;
use super::values::described;
use crate::library::{refusal, Refusal, Terms};
use crate::terminal::{escaped, Error};

/// The refusal of the field of an expression, for a datum type and what that takes.
pub fn of_field(expression: &[u8], terms: Terms, datum: (&[u8], &str), refusal: &Refusal) -> Error {
    // Those below it are of the expression.
    if refusal.number < refusal::DATUM_UNKNOWN {
        return of_expression(expression, terms, refusal);
    }
    let value = described(expression, terms);
    let (datum, taken) = (escaped(datum.0), datum.1);
    let message = Message {
        name: NAME,
        line: 1,
        number: refusal.number,
        place: None,
        hint: value.map(|value| format!("the value is {value}, and {datum} takes {taken}")),
    };
    message.error()
}
