//! Values of expressions, and the data fields made of them.

use bindings::kind;

use super::limit::MAX_FIELD_BYTES;
use super::{Refusal, Terms, Value};

/// The value of an expression, and how many operators were applied for it.
pub struct Evaluation<'a> {
    pub value: Value<'a>,
    pub operators: u64,
}

/// The value of an expression.
pub fn evaluate<'a>(expression: &'a [u8], terms: Terms<'a>) -> Result<Evaluation<'a>, Refusal> {
    let Terms { table, edition } = terms;
    let mut out = [0; 7];
    let refusal = bindings::evaluate(expression, table, edition.dialect(), &mut out);
    let [found, number, operators, memory, start, len, offset] = out;
    if refusal != 0 {
        return Err(Refusal::of_expression(refusal, offset));
    }
    let string = || &[expression, table][memory as usize][start as usize..][..len as usize];
    let value = match found {
        kind::NUMBER => Value::Number(number),
        kind::STRING => Value::String(string()),
        _ => Value::Wide(string()),
    };
    Ok(Evaluation { value, operators })
}

/// The bytes of a data field.
pub fn field(expression: &[u8], terms: Terms, datum: u8) -> Result<Vec<u8>, Refusal> {
    let (table, dialect) = (terms.table, terms.edition.dialect());
    let mut buffer = vec![0; MAX_FIELD_BYTES];
    let mut out = [0; 2];
    let refusal = bindings::field(&mut buffer, expression, table, datum, dialect, &mut out);
    let [written, offset] = out;
    if refusal != 0 {
        return Err(Refusal::of_expression(refusal, offset));
    }
    buffer.truncate(written as usize);
    Ok(buffer)
}
