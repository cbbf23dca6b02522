//! The editions of the language, as `enum korzhinay_dialect` has them. Each is the dialect of a call.

/// Refuses bare words and `$(NAME)` after `!ifdef`.
pub const NEW: u8 = 0;
/// Takes both, and answers as the new one does to what that one accepts.
pub const OLD: u8 = 1;
