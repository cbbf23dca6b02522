//! Texts from outside in the middle of a message.

use crate::terminal::{characters, columns};

/// The most columns of a text that a message repeats. Every name that a record holds is shorter.
pub const MAX_COLUMNS: usize = 70;

/// A text as it is shown, without the rest if it is long.
pub fn brief(text: &[u8]) -> String {
    let mut start = String::new();
    for shown in characters(text) {
        if columns(&start) + columns(&shown.text) > MAX_COLUMNS {
            return start + "...";
        }
        start += &shown.text;
    }
    start
}
