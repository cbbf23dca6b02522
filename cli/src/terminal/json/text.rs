//! Texts in JSON.

use crate::terminal::escaping::is_unseen;

/// A text in quotes. Each part that is not UTF-8 becomes U+FFFD, and no unseen character is in it as it is.
pub fn quoted(text: &[u8]) -> String {
    let inside: String = String::from_utf8_lossy(text).chars().map(written).collect();
    format!("\"{inside}\"")
}

fn written(character: char) -> String {
    match character {
        '"' | '\\' => format!("\\{character}"),
        _ if is_unseen(character) => {
            let mut room = [0; 2];
            let units = character.encode_utf16(&mut room).iter();
            units.map(|unit| format!("\\u{unit:04x}")).collect()
        }
        _ => character.into(),
    }
}
