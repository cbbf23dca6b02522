//! The editions of the language.

use bindings::edition;

/// Whatever the new edition accepts, the old one accepts with the same answer.
#[derive(Clone, Copy, PartialEq)]
pub enum Edition {
    Old,
    New,
}

impl Edition {
    /// The dialect of a call.
    pub fn dialect(self) -> u8 {
        match self {
            Edition::Old => edition::OLD,
            Edition::New => edition::NEW,
        }
    }
}
