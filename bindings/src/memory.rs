//! The arrays that a string value can be a part of, as `enum korzhinay_memory` has them.

pub const EXPRESSION: u64 = 0;
pub const TABLE: u64 = 1;
