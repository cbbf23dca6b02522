//! Refusals of tables.

use super::message::Message;
use crate::terminal::Error;

/// The refusal of a table. It has no place.
pub fn of_table(name: &[u8], number: u8) -> Error {
    let message = Message {
        name,
        line: 0,
        number,
        place: None,
        hint: None,
    };
    message.error()
}
