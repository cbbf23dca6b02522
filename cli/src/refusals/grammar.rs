//! What is missing where the tokens form no expression (7).

use super::brief::brief;
use super::operands::follows_operand;
use crate::library::{self, token, Terms, Token};

/// What is missing at an offset: that of the first token which cannot come there, or the end of the expression.
pub fn missing(expression: &[u8], terms: Terms, offset: usize) -> Option<String> {
    let tokens = library::tokens(expression, terms.edition).read;
    let at = tokens.partition_point(|token| token.start < offset);
    let text = |token: &Token| brief(&expression[token.start..][..token.len]);
    let open = innermost(&tokens[..at]);
    Some(match (follows_operand(&tokens, at), tokens.get(at)) {
        (false, Some(found)) => format!("an operand is missing before `{}`", text(found)),
        (false, None) => match tokens.last() {
            Some(last) => format!("an operand is missing after `{}`", text(last)),
            None => "there is no expression".into(),
        },
        (true, None) => match open? {
            token::OPEN => "a `)` is missing".into(),
            _ => "the `:` of a `?` is missing".into(),
        },
        (true, Some(found)) => match (found.code, open) {
            (token::CLOSE, Some(token::QUESTION)) => "the `:` of a `?` is missing".into(),
            (token::CLOSE, _) => "no `(` is open here".into(),
            (token::COLON, _) => "no `?` is open here".into(),
            _ => format!("an operator is missing before `{}`", text(found)),
        },
    })
}

/// The innermost `(` or `?` that is open after these tokens.
fn innermost(tokens: &[Token]) -> Option<u8> {
    let mut open = Vec::new();
    for token in tokens {
        match token.code {
            token::OPEN | token::QUESTION => open.push(token.code),
            token::CLOSE | token::COLON => {
                open.pop();
            }
            _ => {}
        }
    }
    open.pop()
}
