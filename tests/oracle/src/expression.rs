//! The value of an expression (document 01, Kinds and values, and document 02,
//! orders 1, 3 and 5).

use crate::arithmetic::{binary, compare, is_comparison, unary};
use crate::beginning::first_astray;
use crate::bytes::{count_while, is_blank};
use crate::edition::Edition;
use crate::kinds::leftmost_wrong;
use crate::refusal::{self, Refusal};
use crate::settings::Settings;
use crate::table::is_well_formed;
use crate::tokens::{bar_outside, code, scan, Scan, Token};
use crate::tree::{parse, Node, NodeId, TokenId, Tree};

/// A string value is the very part of the expression or table that holds it, or
/// of a DEFINE line's expression.
#[derive(Clone, Copy, Debug, PartialEq, Eq)]
pub enum Value<'a> {
    Number(u64),
    Text(&'a [u8]),
    Wide(&'a [u8]),
}

#[derive(Clone, Copy, Debug, PartialEq, Eq)]
pub enum Kind {
    Number,
    Text,
    Wide,
}

impl Value<'_> {
    pub fn kind(&self) -> Kind {
        match self {
            Value::Number(_) => Kind::Number,
            Value::Text(_) => Kind::Text,
            Value::Wide(_) => Kind::Wide,
        }
    }
}

/// A value and how many operators were applied on the way to it.
#[derive(Clone, Copy, Debug, PartialEq, Eq)]
pub struct Outcome<'a> {
    pub value: Value<'a>,
    pub count: u64,
}

/// An outcome, or the refusal.
pub type Answer<'a> = Result<Outcome<'a>, Refusal>;

/// Where `|` and `||` may be (document 02, order 1).
#[derive(Clone, Copy, Debug, PartialEq, Eq)]
pub(crate) enum Bars {
    /// In parentheses only, else refusal 8: an expression by itself, a field,
    /// a DEFINE line.
    Enclosed,
    /// Anywhere: the condition of an `!if` or `!elseif`.
    Free,
}

/// The answer to one expression by itself: refusals 1 to 12, or its value.
pub fn evaluate<'a>(expr: &'a [u8], table: &'a [u8], edition: Edition) -> Answer<'a> {
    if !is_well_formed(table) {
        return Err(Refusal::nowhere(refusal::TABLE));
    }
    evaluate_with(expr, &Settings::of(table), edition, Bars::Enclosed)
}

/// As `evaluate`, for settings over a table that is known to be well formed.
pub(crate) fn evaluate_with<'a>(
    expr: &'a [u8],
    settings: &Settings<'a>,
    edition: Edition,
    bars: Bars,
) -> Answer<'a> {
    let Scan { tokens, refusal } = scan(expr, edition);
    if let Some(refusal) = refusal {
        return Err(refusal);
    }
    let Some(tree) = parse(&tokens) else {
        return Err(Refusal::at(refusal::GRAMMAR, breaking_place(expr, &tokens)));
    };
    if let (Bars::Enclosed, Some(bar)) = (bars, bar_outside(&tokens)) {
        return Err(Refusal::at(refusal::BAR, bar.start));
    }
    let operands = operands(expr, settings, &tokens)?;
    let kinds: Vec<Kind> = operands.iter().map(Value::kind).collect();
    if let Some(operator) = leftmost_wrong(&tree, &tokens, &kinds) {
        return Err(Refusal::at(refusal::KIND, tokens[operator].start));
    }
    let work = Work {
        tree,
        tokens,
        operands,
    };
    let mut count = 0;
    let value = work.value(work.tree.root, &mut count)?;
    Ok(Outcome { value, count })
}

/// Where tokens without a derivation go wrong: at the first one that no
/// continuation can save, or else at the end, which is the `#` or the length.
fn breaking_place(expr: &[u8], tokens: &[Token]) -> usize {
    match first_astray(tokens) {
        Some(token) => tokens[token].start,
        None => {
            let last = tokens.last().map_or(0, |token| token.start + token.len);
            last + count_while(&expr[last..], is_blank)
        }
    }
}

/// The value of each token that is an operand; the others have 0. The
/// leftmost PCD that is missing is refused.
fn operands<'a>(
    expr: &'a [u8],
    settings: &Settings<'a>,
    tokens: &[Token],
) -> Result<Vec<Value<'a>>, Refusal> {
    tokens
        .iter()
        .map(|token| {
            let bytes = &expr[token.start..token.start + token.len];
            Ok(match token.code {
                code::TEXT => Value::Text(&bytes[1..bytes.len() - 1]),
                code::BARE => Value::Text(bytes),
                code::WIDE => Value::Wide(&bytes[2..bytes.len() - 1]),
                code::MACRO => {
                    let value = settings.of_macro(&bytes[2..bytes.len() - 1]);
                    value.unwrap_or(Value::Number(0))
                }
                code::PCD => {
                    let value = settings.of_pcd(bytes);
                    value.ok_or(Refusal::at(refusal::PCD, token.start))?
                }
                _ => Value::Number(token.value),
            })
        })
        .collect()
}

struct Work<'a> {
    tree: Tree,
    tokens: Vec<Token>,
    operands: Vec<Value<'a>>,
}

impl<'a> Work<'a> {
    /// The value of a node whose kinds are checked. Each operator that is
    /// reached adds 1 to the count, a short-circuited one too.
    fn value(&self, node: NodeId, count: &mut u64) -> Result<Value<'a>, Refusal> {
        match self.tree.nodes[node] {
            Node::Operand(token) => Ok(self.operands[token]),
            Node::Unary(operator, inner) => {
                let number = self.number(inner, count)?;
                *count += 1;
                let result = unary(self.tokens[operator].code, number);
                Ok(Value::Number(self.result(operator, result)?))
            }
            Node::Binary(operator, left, right) => {
                let code = self.tokens[operator].code;
                let result = if is_comparison(code) {
                    let left = self.value(left, count)?;
                    let right = self.value(right, count)?;
                    u64::from(compare(code, left, right))
                } else {
                    let left = self.number(left, count)?;
                    match code {
                        code::AND if left == 0 => 0,
                        code::OR | code::OR_BARS if left != 0 => 1,
                        _ => {
                            let right = self.number(right, count)?;
                            self.result(operator, binary(code, left, right))?
                        }
                    }
                };
                *count += 1;
                Ok(Value::Number(result))
            }
            Node::Choice(_, test, yes, no) => {
                let arm = if self.number(test, count)? != 0 {
                    yes
                } else {
                    no
                };
                let value = self.value(arm, count)?;
                *count += 1;
                Ok(value)
            }
        }
    }

    /// What an operator gives, or its refusal at its own place.
    fn result(&self, operator: TokenId, result: Result<u64, u8>) -> Result<u64, Refusal> {
        result.map_err(|number| Refusal::at(number, self.tokens[operator].start))
    }

    fn number(&self, node: NodeId, count: &mut u64) -> Result<u64, Refusal> {
        match self.value(node, count)? {
            Value::Number(number) => Ok(number),
            _ => unreachable!("kinds are checked before evaluation"),
        }
    }
}
