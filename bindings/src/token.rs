//! The codes of tokens, as `enum korzhinay_code` has them.

pub const NUMBER: u8 = 0;
pub const TRUTH: u8 = 1;
pub const STRING: u8 = 2;
pub const WIDE: u8 = 3;
pub const MACRO: u8 = 4;
pub const PCD: u8 = 5;
/// A bare word, in the old edition only.
pub const BARE: u8 = 6;
pub const OPEN: u8 = 10;
pub const CLOSE: u8 = 11;
pub const QUESTION: u8 = 12;
pub const COLON: u8 = 13;
/// `!`, `NOT`, `not`
pub const NOT: u8 = 14;
/// `~`
pub const COMPLEMENT: u8 = 15;
pub const PLUS: u8 = 16;
pub const MINUS: u8 = 17;
pub const TIMES: u8 = 18;
pub const DIVIDE: u8 = 19;
pub const REMAINDER: u8 = 20;
pub const SHIFT_LEFT: u8 = 21;
pub const SHIFT_RIGHT: u8 = 22;
/// `<`, `LT`
pub const LESS: u8 = 23;
/// `<=`, `LE`
pub const LESS_EQUAL: u8 = 24;
/// `>`, `GT`
pub const GREATER: u8 = 25;
/// `>=`, `GE`
pub const GREATER_EQUAL: u8 = 26;
/// `==`, `EQ`
pub const EQUAL: u8 = 27;
/// `!=`, `NE`
pub const NOT_EQUAL: u8 = 28;
pub const BIT_AND: u8 = 29;
pub const BIT_XOR: u8 = 30;
pub const BIT_OR: u8 = 31;
/// `&&`, `AND`, `and`
pub const AND: u8 = 32;
/// `XOR`, `xor`
pub const XOR: u8 = 33;
/// `||`
pub const OR_BARS: u8 = 34;
/// `OR`, `or`
pub const OR: u8 = 35;
