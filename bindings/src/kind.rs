//! The kinds of a value, as `enum korzhinay_kind` has them.

pub const NUMBER: u64 = 0;
pub const STRING: u64 = 1;
pub const WIDE: u64 = 2;
