//! What decides an answer beside the bytes of the expression or the file.

use super::Edition;

#[derive(Clone, Copy)]
pub struct Terms<'a> {
    /// The settings.
    pub table: &'a [u8],
    pub edition: Edition,
}
