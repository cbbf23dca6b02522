//! The operands of an operator. They are found by levels alone, since the expression is known to be one: refusals 8 to 12 come after 7.

use std::ops::Range;

use crate::library::{self, token, Terms, Token};

/// An operator with its operands, from left to right; `?` has three.
pub struct Operation<'a> {
    pub code: u8,
    pub spelling: &'a [u8],
    /// Each as an expression by itself: a bare word at its front is in quotes.
    pub operands: Vec<Vec<u8>>,
    /// The operand that is a bare word: no operator has two.
    pub bare_word: Option<&'a [u8]>,
}

/// The operator that starts at an offset.
pub fn operation<'a>(expression: &'a [u8], terms: Terms, offset: usize) -> Option<Operation<'a>> {
    let tokens = library::tokens(expression, terms.edition).read;
    let at = tokens.iter().position(|token| token.start == offset)?;
    let text = |part: Range<usize>| {
        let (first, last) = (tokens.get(part.start)?, tokens.get(part.end - 1)?);
        expression.get(first.start..last.start + last.len)
    };
    let is_bare = |at: usize| {
        tokens
            .get(at)
            .is_some_and(|token| token.code == token::BARE)
    };
    let alone = |part: Range<usize>| match is_bare(part.start) {
        true => quoted(text(part.clone())?, tokens[part.start].len),
        false => Some(text(part)?.to_vec()),
    };
    let parts = parts(&tokens, at);
    let bare_word = parts
        .iter()
        .find(|part| part.len() == 1 && is_bare(part.start));
    Some(Operation {
        code: tokens[at].code,
        spelling: text(at..at + 1)?,
        bare_word: bare_word.and_then(|part| text(part.clone())),
        operands: parts.into_iter().map(alone).collect::<Option<_>>()?,
    })
}

/// A text with quotes round the word of this length at its front.
fn quoted(text: &[u8], len: usize) -> Option<Vec<u8>> {
    let (word, rest) = text.split_at_checked(len)?;
    Some([b"\"", word, b"\"", rest].concat())
}

/// The tokens of each operand.
fn parts(tokens: &[Token], at: usize) -> Vec<Range<usize>> {
    let right = |start, level| start..end_of_operand(tokens, start, level);
    if tokens[at].code == token::QUESTION {
        let chosen = right(at + 1, WHOLE);
        let other = right(chosen.end + 1, WHOLE);
        return vec![start_of_operand(tokens, at, CHOICE - 1)..at, chosen, other];
    }
    match level(tokens, at) {
        Some(level) => vec![
            start_of_operand(tokens, at, level)..at,
            right(at + 1, level),
        ],
        None => vec![right(at + 1, 0)],
    }
}

/// The level of `?` and `:`, and one that is above all.
const CHOICE: u8 = 13;
const WHOLE: u8 = 14;

/// The level of a binary operator, or of `?` and `:`, as the manual numbers them; no other token has one.
fn level(tokens: &[Token], at: usize) -> Option<u8> {
    let level = match tokens[at].code {
        token::TIMES | token::DIVIDE | token::REMAINDER => 2,
        token::PLUS | token::MINUS if follows_operand(tokens, at) => 3,
        token::SHIFT_LEFT | token::SHIFT_RIGHT => 4,
        token::LESS..=token::GREATER_EQUAL => 5,
        token::EQUAL | token::NOT_EQUAL => 6,
        token::BIT_AND => 7,
        token::BIT_XOR => 8,
        token::BIT_OR => 9,
        token::AND => 10,
        token::XOR => 11,
        token::OR_BARS | token::OR => 12,
        token::QUESTION | token::COLON => CHOICE,
        _ => return None,
    };
    Some(level)
}

/// Whether the token before this one ends an operand.
pub fn follows_operand(tokens: &[Token], at: usize) -> bool {
    let before = at.checked_sub(1).map(|before| tokens[before].code);
    before.is_some_and(|code| code <= token::BARE || code == token::CLOSE)
}

/// Where the left operand of an operator of this level starts: operators to its left that bind as tight or tighter belong to it.
fn start_of_operand(tokens: &[Token], end: usize, of: u8) -> usize {
    let mut depth = 0;
    for at in (0..end).rev() {
        match tokens[at].code {
            token::CLOSE => depth += 1,
            token::OPEN if depth == 0 => return at + 1,
            token::OPEN => depth -= 1,
            _ if depth == 0 && level(tokens, at) > Some(of) => return at + 1,
            _ => {}
        }
    }
    0
}

/// Where an operand that starts here ends: at an operator of this level or a looser one, or where a parenthesis or a choice around it
/// goes on.
fn end_of_operand(tokens: &[Token], start: usize, of: u8) -> usize {
    let (mut depth, mut choices) = (0, 0);
    for (at, found) in tokens.iter().enumerate().skip(start) {
        match found.code {
            token::OPEN => depth += 1,
            token::CLOSE if depth == 0 => return at,
            token::CLOSE => depth -= 1,
            _ if depth > 0 => {}
            _ if level(tokens, at) >= Some(of) => return at,
            token::QUESTION => choices += 1,
            token::COLON if choices == 0 => return at,
            token::COLON => choices -= 1,
            _ => {}
        }
    }
    tokens.len()
}
