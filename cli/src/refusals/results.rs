//! Results that are no numbers (11, 12).

use std::slice;

use super::names::unset;
use super::operands::{operation, Operation};
use super::values::number;
use crate::library::{token, Terms};
use crate::terminal::escaped;

/// The operands whose result is out of range, as numbers.
pub fn out_of_range(expression: &[u8], terms: Terms, offset: usize) -> Option<String> {
    let Operation {
        code,
        spelling,
        operands,
        ..
    } = operation(expression, terms, offset)?;
    let operator = escaped(spelling);
    let numbers = operands.iter().map(|operand| number(operand, terms));
    let formula = match numbers.collect::<Option<Vec<u64>>>()?.as_slice() {
        [right] => format!("{operator}{right}"),
        [left, right] => format!("{left} {operator} {right}"),
        _ => return None,
    };
    let side = match code {
        token::MINUS => "below 0",
        _ => "above 2^64 - 1",
    };
    let unset = unset(&operands, terms);
    Some(format!("`{formula}` is {side}{unset}"))
}

/// What is divided by zero.
pub fn zero_divisor(expression: &[u8], terms: Terms, offset: usize) -> Option<String> {
    let Operation {
        spelling, operands, ..
    } = operation(expression, terms, offset)?;
    let [left, right] = operands.as_slice() else {
        return None;
    };
    let (operator, left) = (escaped(spelling), number(left, terms)?);
    let unset = unset(slice::from_ref(right), terms);
    Some(format!("`{operator}` divides {left} by 0{unset}"))
}
