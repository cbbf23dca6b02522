//! The two editions of the language (document 02, order 5).

/// What the new edition accepts, the old one accepts with the same answer.
#[derive(Clone, Copy, Debug, PartialEq, Eq)]
pub enum Edition {
    New,
    /// Takes besides a bare word after an equality operator, and `$(NAME)`
    /// after `!ifdef` and `!ifndef`.
    Old,
}

pub const EDITIONS: [Edition; 2] = [Edition::New, Edition::Old];
