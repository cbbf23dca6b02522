//! Notes: what a user should know of a selection that is accepted all the same. A line that goes in or out by a slip of the pen is
//! noticed here, and nothing is decided: the answer, and the status without --strict, do not depend on any of this.

mod bare;
mod encoding;
mod hidden;
mod kept;
mod known;
mod note;
mod old;
mod overriding;
mod quoted;
mod similar;
mod unset;
mod unused;

pub use note::{json, messages, Note};
pub use old::of_expression;
pub use unused::of_settings;

use crate::description::Mention;
use crate::examined::Examined;
use crate::settings::Settings;
use known::Known;

/// The notes of one file, in the order of its lines, from what its read lines name. If it is refused, only its bytes are looked at.
/// `warns_old` is for those on what the new edition would refuse.
pub fn of_file(
    file: &Examined,
    mentions: &[(usize, Mention)],
    settings: &Settings,
    warns_old: bool,
) -> Vec<Note> {
    let read: Vec<(usize, &[u8])> = file.read_lines().collect();
    let known = Known::new(file, settings);
    let mut notes = encoding::notes(file);
    notes.extend(hidden::notes(file));
    notes.extend(unset::notes(file, &read, mentions, &known));
    notes.extend(overriding::notes(file, mentions, settings));
    notes.extend(quoted::notes(file, &read));
    notes.extend(bare::notes(file, &read, &known));
    notes.extend(kept::notes(file, &known));
    if warns_old {
        notes.extend(old::notes(file, &read, mentions));
    }
    notes.sort_by_key(|note| (note.line, note.column));
    notes
}
