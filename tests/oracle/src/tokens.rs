//! From the bytes of an expression to its tokens (document 01, Tokens, and
//! document 02, order 5).

use crate::bytes::{count_while, is_blank, is_run, macro_length, pcd_length};
use crate::edition::Edition;
use crate::refusal::{self, Refusal};

pub const MAX_BYTES: usize = 1024;
pub const MAX_TOKENS: usize = 200;
pub const MAX_DEPTH: i64 = 16;

/// The codes of tokens. Two spellings of one operator share one.
pub mod code {
    pub const NUMBER: u8 = 0;
    pub const TRUTH: u8 = 1;
    pub const TEXT: u8 = 2;
    pub const WIDE: u8 = 3;
    pub const MACRO: u8 = 4;
    pub const PCD: u8 = 5;
    /// A string without quotes, in the old edition only.
    pub const BARE: u8 = 6;
    pub const OPEN: u8 = 10;
    pub const CLOSE: u8 = 11;
    pub const QUESTION: u8 = 12;
    pub const COLON: u8 = 13;
    pub const NOT: u8 = 14;
    pub const COMPLEMENT: u8 = 15;
    pub const PLUS: u8 = 16;
    pub const MINUS: u8 = 17;
    pub const TIMES: u8 = 18;
    pub const DIVIDE: u8 = 19;
    pub const REMAINDER: u8 = 20;
    pub const SHIFT_LEFT: u8 = 21;
    pub const SHIFT_RIGHT: u8 = 22;
    pub const LESS: u8 = 23;
    pub const LESS_EQUAL: u8 = 24;
    pub const GREATER: u8 = 25;
    pub const GREATER_EQUAL: u8 = 26;
    pub const EQUAL: u8 = 27;
    pub const UNEQUAL: u8 = 28;
    pub const BIT_AND: u8 = 29;
    pub const BIT_XOR: u8 = 30;
    pub const BIT_OR: u8 = 31;
    pub const AND: u8 = 32;
    pub const XOR: u8 = 33;
    /// `||`, which refusal 8 is about, as `|` is
    pub const OR_BARS: u8 = 34;
    /// `OR`, `or`
    pub const OR: u8 = 35;
}

/// One token: its code, its place in the expression with all its quotes and
/// brackets, and the value of a number or truth word (0 for the others).
#[derive(Clone, Copy, Debug, PartialEq, Eq)]
pub struct Token {
    pub code: u8,
    pub start: usize,
    pub len: usize,
    pub value: u64,
}

/// The tokens read before reading stopped, and why it stopped early if so.
#[derive(Clone, Debug, PartialEq, Eq)]
pub struct Scan {
    pub tokens: Vec<Token>,
    pub refusal: Option<Refusal>,
}

/// Reads the whole expression; gives refusals 2 to 6.
pub fn scan(expr: &[u8], edition: Edition) -> Scan {
    let mut tokens = Vec::new();
    let refusal = read_all(expr, edition, &mut tokens).err();
    Scan { tokens, refusal }
}

fn read_all(expr: &[u8], edition: Edition, tokens: &mut Vec<Token>) -> Result<(), Refusal> {
    if expr.len() > MAX_BYTES {
        return Err(Refusal::nowhere(refusal::EXPRESSION_LENGTH));
    }
    let mut start = 0;
    loop {
        start += count_while(&expr[start..], is_blank);
        let rest = &expr[start..];
        if rest.is_empty() || rest[0] == b'#' {
            break;
        }
        // Before the token is read: anything after token 200 is 5.
        if tokens.len() == MAX_TOKENS {
            return Err(Refusal::at(refusal::TOKEN_COUNT, start));
        }
        let bare = edition == Edition::Old && tokens.last().is_some_and(is_equality);
        let (code, len, value) =
            read_one(rest, bare).map_err(|number| Refusal::at(number, start))?;
        tokens.push(Token {
            code,
            start,
            len,
            value,
        });
        start += len;
    }
    match with_depth(tokens).find(|(_, depth)| *depth > MAX_DEPTH) {
        Some((token, _)) => Err(Refusal::at(refusal::DEPTH, token.start)),
        None => Ok(()),
    }
}

/// Whether this token is an operator after which the old edition takes a bare
/// word: `==`, `!=`, `EQ` or `NE`.
fn is_equality(token: &Token) -> bool {
    matches!(token.code, code::EQUAL | code::UNEQUAL)
}

/// Each token with how many more `(` than `)` there are up to it, itself
/// counted. The difference may go below zero and come back, so it is signed.
fn with_depth(tokens: &[Token]) -> impl Iterator<Item = (&Token, i64)> {
    tokens.iter().scan(0, |depth, token| {
        match token.code {
            code::OPEN => *depth += 1,
            code::CLOSE => *depth -= 1,
            _ => {}
        }
        Some((token, *depth))
    })
}

/// The leftmost `|` or `||` outside all parentheses, in tokens that have a
/// derivation. `OR` is no bar.
pub fn bar_outside(tokens: &[Token]) -> Option<&Token> {
    with_depth(tokens)
        .find(|(token, depth)| *depth == 0 && matches!(token.code, code::BIT_OR | code::OR_BARS))
        .map(|(token, _)| token)
}

/// Code, length and value of the token at the front of `rest`.
type Read = Result<(u8, usize, u64), u8>;

/// `bare` says whether a bare word may be here.
fn read_one(rest: &[u8], bare: bool) -> Read {
    match rest[0] {
        b'0'..=b'9' => read_number(rest),
        b'A'..=b'Z' | b'a'..=b'z' | b'_' => read_word(rest, bare),
        b'"' | b'\'' => Ok((code::TEXT, quoted_length(rest)?, 0)),
        b'$' => read_macro(rest),
        _ => read_symbol(rest),
    }
}

fn read_number(rest: &[u8]) -> Read {
    let run = &rest[..count_while(rest, is_run)];
    let (digits, base) = match run {
        [b'0', b'x' | b'X', digits @ ..] => (digits, 16),
        [b'0', _, ..] => return Err(refusal::TOKEN),
        _ => (run, 10),
    };
    if digits.is_empty() {
        return Err(refusal::TOKEN);
    }
    // A run that is no number at all is 3, however large its beginning, so
    // all digits are checked before the value is.
    let mut value = Some(0u64);
    for &byte in digits {
        let digit = char::from(byte).to_digit(base).ok_or(refusal::TOKEN)?;
        value = value
            .and_then(|value| value.checked_mul(u64::from(base)))
            .and_then(|value| value.checked_add(u64::from(digit)));
    }
    Ok((code::NUMBER, run.len(), value.ok_or(refusal::LITERAL)?))
}

fn read_word(rest: &[u8], bare: bool) -> Read {
    let run = &rest[..count_while(rest, is_run)];
    if run == b"L" && matches!(rest.get(1), Some(b'"' | b'\'')) {
        // Without its end it is a bad string, never a bare word `L`.
        return Ok((code::WIDE, 1 + quoted_length(&rest[1..])?, 0));
    }
    // Before the words, since `AND.b` is a PCD.
    let pcd = pcd_length(rest);
    if pcd > 0 {
        return Ok((code::PCD, pcd, 0));
    }
    let (code, value) = match run {
        b"TRUE" | b"True" | b"true" => (code::TRUTH, 1),
        b"FALSE" | b"False" | b"false" => (code::TRUTH, 0),
        b"NOT" | b"not" => (code::NOT, 0),
        b"LT" => (code::LESS, 0),
        b"LE" => (code::LESS_EQUAL, 0),
        b"GT" => (code::GREATER, 0),
        b"GE" => (code::GREATER_EQUAL, 0),
        b"EQ" => (code::EQUAL, 0),
        b"NE" => (code::UNEQUAL, 0),
        b"AND" | b"and" => (code::AND, 0),
        b"XOR" | b"xor" => (code::XOR, 0),
        b"OR" | b"or" => (code::OR, 0),
        _ if bare => (code::BARE, 0),
        _ => return Err(refusal::TOKEN),
    };
    Ok((code, run.len(), value))
}

/// Length of the string at the front, both quotes included.
fn quoted_length(rest: &[u8]) -> Result<usize, u8> {
    let quote = rest[0];
    let inside = count_while(&rest[1..], |byte| {
        byte != quote && byte != b'\r' && byte != b'\n'
    });
    match rest.get(1 + inside) {
        Some(&byte) if byte == quote => Ok(inside + 2),
        _ => Err(refusal::TOKEN),
    }
}

fn read_macro(rest: &[u8]) -> Read {
    let name = match rest {
        [b'$', b'(', after @ ..] => macro_length(after),
        _ => 0,
    };
    if name > 0 && rest.get(2 + name) == Some(&b')') {
        Ok((code::MACRO, name + 3, 0))
    } else {
        Err(refusal::TOKEN)
    }
}

fn read_symbol(rest: &[u8]) -> Read {
    // Longest first: the arms with two bytes come before those with one.
    let (code, len) = match rest {
        [b'<', b'<', ..] => (code::SHIFT_LEFT, 2),
        [b'>', b'>', ..] => (code::SHIFT_RIGHT, 2),
        [b'<', b'=', ..] => (code::LESS_EQUAL, 2),
        [b'>', b'=', ..] => (code::GREATER_EQUAL, 2),
        [b'=', b'=', ..] => (code::EQUAL, 2),
        [b'!', b'=', ..] => (code::UNEQUAL, 2),
        [b'&', b'&', ..] => (code::AND, 2),
        [b'|', b'|', ..] => (code::OR_BARS, 2),
        [b'(', ..] => (code::OPEN, 1),
        [b')', ..] => (code::CLOSE, 1),
        [b'?', ..] => (code::QUESTION, 1),
        [b':', ..] => (code::COLON, 1),
        [b'!', ..] => (code::NOT, 1),
        [b'~', ..] => (code::COMPLEMENT, 1),
        [b'+', ..] => (code::PLUS, 1),
        [b'-', ..] => (code::MINUS, 1),
        [b'*', ..] => (code::TIMES, 1),
        [b'/', ..] => (code::DIVIDE, 1),
        [b'%', ..] => (code::REMAINDER, 1),
        [b'<', ..] => (code::LESS, 1),
        [b'>', ..] => (code::GREATER, 1),
        [b'&', ..] => (code::BIT_AND, 1),
        [b'^', ..] => (code::BIT_XOR, 1),
        [b'|', ..] => (code::BIT_OR, 1),
        _ => return Err(refusal::TOKEN),
    };
    Ok((code, len, 0))
}
