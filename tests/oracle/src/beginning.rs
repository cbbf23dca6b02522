//! Good beginnings of expressions (document 02, order 3): token lists that can
//! be continued so that the whole has a derivation.
//!
//! This does not use the parser. Levels 2 to 12 of the grammar only say how
//! operators group: any operands with unary operators before them and binary
//! operators between them have a derivation. So all that matters is whether an
//! operand or an operator comes next, and which `(` and `?` are still open. A
//! list that has not gone astray can always be continued: by an operand if one
//! is awaited, and then by what closes the open ones from the inside out. Limits
//! on tokens, parentheses and bytes do not count here.

use crate::tokens::{code, Token};
use crate::tree::TokenId;

#[derive(Clone, Copy, PartialEq)]
enum Awaited {
    Operand,
    Operator,
}

#[derive(Clone, Copy, PartialEq)]
enum Open {
    Parenthesis,
    /// A `?` whose `:` has not come.
    Question,
}

/// The first token after which no continuation has a derivation, if any.
pub fn first_astray(tokens: &[Token]) -> Option<TokenId> {
    let mut awaited = Awaited::Operand;
    let mut open = Vec::new();
    tokens.iter().position(|token| {
        match step(awaited, token.code, &mut open) {
            Some(next) => awaited = next,
            None => return true,
        }
        false
    })
}

/// What is awaited after one more token, or none if it cannot stand here.
fn step(awaited: Awaited, code: u8, open: &mut Vec<Open>) -> Option<Awaited> {
    match (awaited, code) {
        (Awaited::Operand, code::NUMBER..=code::BARE) => Some(Awaited::Operator),
        (Awaited::Operand, code::NOT | code::COMPLEMENT | code::PLUS | code::MINUS) => {
            Some(awaited)
        }
        (Awaited::Operand, code::OPEN) => {
            open.push(Open::Parenthesis);
            Some(awaited)
        }
        (Awaited::Operator, code::PLUS..=code::OR) => Some(Awaited::Operand),
        (Awaited::Operator, code::QUESTION) => {
            open.push(Open::Question);
            Some(Awaited::Operand)
        }
        (Awaited::Operator, code::COLON) => {
            (open.pop() == Some(Open::Question)).then_some(Awaited::Operand)
        }
        (Awaited::Operator, code::CLOSE) => {
            (open.pop() == Some(Open::Parenthesis)).then_some(awaited)
        }
        _ => None,
    }
}
