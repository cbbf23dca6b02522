//! Macros and PCDs that are not set.

use super::brief::brief;
use crate::description::macro_name;
use crate::library::{self, token, Terms, Token};

/// What is said of operands that are macros which are not set: a message goes on with it.
pub fn unset(operands: &[Vec<u8>], terms: Terms) -> String {
    let unset = operands
        .iter()
        .filter_map(|operand| unset_macro(operand, terms));
    unset
        .map(|name| format!("; {name} is not set, so it is the number 0"))
        .collect()
}

/// The macro that an operand is, parentheses left out, if the table does not have it.
fn unset_macro(operand: &[u8], terms: Terms) -> Option<String> {
    let mut tokens = library::tokens(operand, terms.edition).read;
    tokens.retain(|token| !matches!(token.code, token::OPEN | token::CLOSE));
    let [Token {
        code: token::MACRO,
        start,
        len,
        ..
    }] = tokens.as_slice()
    else {
        return None;
    };
    let text = &operand[*start..][..*len];
    let name = macro_name(text)?;
    let is_unset = library::lookup(terms.table, name).is_none();
    is_unset.then(|| brief(text))
}

/// The PCD at an offset, which the table does not have (9).
pub fn missing_pcd(expression: &[u8], terms: Terms, offset: usize) -> Option<String> {
    let tokens = library::tokens(expression, terms.edition).read;
    let found = tokens.iter().find(|token| token.start == offset)?;
    let name = brief(expression.get(found.start..found.start + found.len)?);
    Some(format!(
        "{name} is not set; set it, as with -D {name}=VALUE"
    ))
}
