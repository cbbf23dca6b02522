//! What each operator gives (document 01, Kinds and values). A refusal is its
//! number alone; where it is, the caller knows.

use std::cmp::Ordering;

use crate::expression::Value;
use crate::refusal;
use crate::tokens::code;

pub fn is_comparison(operator: u8) -> bool {
    matches!(
        operator,
        code::LESS
            | code::LESS_EQUAL
            | code::GREATER
            | code::GREATER_EQUAL
            | code::EQUAL
            | code::UNEQUAL
    )
}

/// Slices compare byte by byte with a proper beginning the smaller, which is
/// the order that strings need.
pub fn compare(operator: u8, left: Value, right: Value) -> bool {
    let order = match (left, right) {
        (Value::Number(left), Value::Number(right)) => left.cmp(&right),
        (Value::Text(left), Value::Text(right)) => left.cmp(right),
        (Value::Wide(left), Value::Wide(right)) => left.cmp(right),
        _ => unreachable!("kinds are checked before evaluation"),
    };
    match operator {
        code::LESS => order == Ordering::Less,
        code::LESS_EQUAL => order != Ordering::Greater,
        code::GREATER => order == Ordering::Greater,
        code::GREATER_EQUAL => order != Ordering::Less,
        code::EQUAL => order == Ordering::Equal,
        code::UNEQUAL => order != Ordering::Equal,
        _ => unreachable!("only comparisons come here"),
    }
}

pub fn unary(operator: u8, number: u64) -> Result<u64, u8> {
    match operator {
        code::NOT => Ok(u64::from(number == 0)),
        code::PLUS => Ok(number),
        code::MINUS => 0u64.checked_sub(number).ok_or(refusal::RANGE),
        code::COMPLEMENT => Ok(u64::MAX - number),
        _ => unreachable!("no other unary operator is parsed"),
    }
}

/// The binary operators that take numbers, both operands being evaluated.
pub fn binary(operator: u8, left: u64, right: u64) -> Result<u64, u8> {
    match operator {
        code::TIMES => left.checked_mul(right).ok_or(refusal::RANGE),
        code::DIVIDE => left.checked_div(right).ok_or(refusal::DIVISOR),
        code::REMAINDER => left.checked_rem(right).ok_or(refusal::DIVISOR),
        code::PLUS => left.checked_add(right).ok_or(refusal::RANGE),
        code::MINUS => left.checked_sub(right).ok_or(refusal::RANGE),
        code::SHIFT_LEFT => shift_left(left, right).ok_or(refusal::RANGE),
        code::SHIFT_RIGHT => Ok(if right < 64 { left >> right } else { 0 }),
        code::BIT_AND => Ok(left & right),
        code::BIT_XOR => Ok(left ^ right),
        code::BIT_OR => Ok(left | right),
        code::AND => Ok(u64::from(left != 0 && right != 0)),
        code::XOR => Ok(u64::from((left != 0) != (right != 0))),
        code::OR | code::OR_BARS => Ok(u64::from(left != 0 || right != 0)),
        _ => unreachable!("no other binary operator is parsed"),
    }
}

/// `number` times 2 to the power `by`, taken in 128 bits so that nothing is
/// lost before it is looked at.
fn shift_left(number: u64, by: u64) -> Option<u64> {
    match (number, by) {
        (0, _) => Some(0),
        (_, 0..=63) => u64::try_from(u128::from(number) << by).ok(),
        _ => None,
    }
}
