//! The datum codes of a field, as `enum korzhinay_datum` has them.

pub const VOID: u8 = 0;
pub const BOOLEAN: u8 = 1;
pub const UINT8: u8 = 2;
pub const UINT16: u8 = 3;
pub const UINT32: u8 = 4;
pub const UINT64: u8 = 5;
