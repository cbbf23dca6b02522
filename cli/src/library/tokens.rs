//! Tokens of expressions.

use super::limit::MAX_TOKENS;
use super::{Edition, Refusal};

/// One token of an expression.
pub struct Token {
    pub code: u8,
    pub start: usize,
    pub len: usize,
    pub value: u64,
}

/// The tokens that were read, and the refusal if there is one.
pub struct Tokens {
    pub read: Vec<Token>,
    pub refusal: Option<Refusal>,
}

/// The tokens of an expression.
pub fn tokens(expression: &[u8], edition: Edition) -> Tokens {
    let mut out = [0; 3];
    let mut codes = [0; MAX_TOKENS];
    let mut starts = [0; MAX_TOKENS];
    let mut lens = [0; MAX_TOKENS];
    let mut values = [0; MAX_TOKENS];
    bindings::tokens(
        expression,
        edition.dialect(),
        &mut out,
        &mut codes,
        &mut starts,
        &mut lens,
        &mut values,
    );
    let [number, count, offset] = out;
    let token = |i: usize| Token {
        code: codes[i],
        start: usize::from(starts[i]),
        len: usize::from(lens[i]),
        value: values[i],
    };
    Tokens {
        read: (0..count as usize).map(token).collect(),
        refusal: (number != 0).then(|| Refusal::of_expression(number as u8, offset)),
    }
}

/// The token that a text is as a whole, if it is one. A bare word has a token before it, so this is the same in both editions.
pub fn single_token(text: &[u8]) -> Option<Token> {
    let found = tokens(text, Edition::New);
    let [token] = <[Token; 1]>::try_from(found.read).ok()?;
    (found.refusal.is_none() && token.len == text.len()).then_some(token)
}
