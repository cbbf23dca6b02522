//! The marks of lines, as `enum korzhinay_mark` has them.

/// A plain line in a branch that is not taken.
pub const DROPPED: u8 = 0;
/// A plain line that is kept.
pub const KEPT: u8 = 1;
/// A directive of which only the word was looked at.
pub const UNREAD: u8 = 2;
/// A directive that was read; the branch after it is not taken.
pub const NOT_TAKEN: u8 = 3;
/// A directive that was read; the branch after it is taken.
pub const TAKEN: u8 = 4;
/// An `!endif` that was read.
pub const END: u8 = 5;
/// A plain line that is kept and sets a macro.
pub const DEFINE: u8 = 6;
/// Every byte of the marks after a refusal.
pub const REFUSED: u8 = 255;
