//! The macros and PCDs that a line names.

use super::directive::{directive, first_byte};
use super::expression::expression_of_line;
use super::runs::split_run;
use crate::library::{self, refusal, single_token, token, Edition, Refusal, Token};

/// A macro or a PCD in a directive, or in the expression of a `DEFINE`.
pub struct Mention<'a> {
    pub sort: Sort,
    pub name: &'a [u8],
    /// The name as it is written, with `$(` and `)` where they are.
    pub text: &'a [u8],
    /// Where that starts in the line.
    pub offset: usize,
    /// The directive's word, or `DEFINE`.
    pub word: &'a [u8],
}

#[derive(Clone, Copy, PartialEq, Eq, PartialOrd, Ord, Hash)]
pub enum Sort {
    Macro,
    Pcd,
}

impl Sort {
    pub fn word(self) -> &'static str {
        match self {
            Sort::Macro => "macro",
            Sort::Pcd => "PCD",
        }
    }
}

/// What a line names: those tokens of its expression, or the macro of its `!ifdef`, with or without `$(` and `)`. It is the same in both
/// editions: a bare word, which is no token in the new one, is passed over in both. The macro that a `DEFINE` sets is not named by it.
pub fn mentions(line: &[u8]) -> Vec<Mention<'_>> {
    let (word, text) = match directive(line) {
        Some(found) => (found.word, found.text),
        None => (b"DEFINE".as_slice(), 0),
    };
    let (at, named) = match (expression_of_line(line), word) {
        (Some((at, expression)), _) => (at, in_expression(expression)),
        (None, b"ifdef" | b"ifndef") => (text, Vec::from_iter(after_ifdef(&line[text..]))),
        _ => return Vec::new(),
    };
    let mention = |(sort, name, start, len)| Mention {
        sort,
        name,
        text: &line[at + start..][..len],
        offset: at + start,
        word,
    };
    named.into_iter().map(mention).collect()
}

/// What is named, its name, and where it starts in the argument, and its length there.
type Named<'a> = (Sort, &'a [u8], usize, usize);

fn in_expression(argument: &[u8]) -> Vec<Named<'_>> {
    let named = |token: &Token| {
        let (start, len) = (token.start, token.len);
        let text = &argument[start..][..len];
        match token.code {
            token::MACRO => Some((Sort::Macro, macro_name(text)?, start, len)),
            token::PCD => Some((Sort::Pcd, text, start, len)),
            _ => None,
        }
    };
    tokens(argument).iter().filter_map(named).collect()
}

/// The tokens of an argument. What is no token, or is after token 200, is passed over, except that a string without its end ends them.
fn tokens(argument: &[u8]) -> Vec<Token> {
    let mut all = Vec::new();
    let mut start = 0;
    loop {
        let found = library::tokens(&argument[start..], Edition::Old);
        let moved = |token: Token| Token {
            start: start + token.start,
            ..token
        };
        all.extend(found.read.into_iter().map(moved));
        let Some(Refusal { number, offset, .. }) = found.refusal else {
            return all;
        };
        start += offset;
        start += match (number, &argument[start..]) {
            (refusal::TOKEN_BAD, [b'"' | b'\'', ..]) => return all,
            (refusal::TOKEN_BAD | refusal::LITERAL_LARGE, rest) => split_run(rest).0.len().max(1),
            (refusal::TOKENS_MANY, _) => 0,
            _ => return all,
        };
    }
}

/// The macro after an `!ifdef`, with or without `$(` and `)`.
fn after_ifdef(argument: &[u8]) -> Option<Named<'_>> {
    let start = first_byte(argument);
    let is_end = |byte: &u8| matches!(byte, b' ' | b'\t' | b'#');
    let text = argument[start..].split(is_end).next()?;
    let name = macro_name(text).unwrap_or(text);
    is_macro_name(name).then_some((Sort::Macro, name, start, text.len()))
}

/// The name in `$(NAME)`.
pub fn macro_name(text: &[u8]) -> Option<&[u8]> {
    text.strip_prefix(b"$(")?.strip_suffix(b")")
}

/// Whether the library reads a name as a macro's.
pub fn is_macro_name(name: &[u8]) -> bool {
    let used = [b"$(", name, b")"].concat();
    single_token(&used).is_some_and(|token| token.code == token::MACRO)
}
