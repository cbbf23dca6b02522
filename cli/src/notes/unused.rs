//! The note on settings that nothing uses.

use std::collections::HashSet;

use super::note::Note;
use crate::description::Mention;
use crate::settings::Settings;
use crate::terminal::escaped;

/// How many settings the note lists.
const MAX_LISTED: usize = 20;

/// One note on all settings of -D and -s that no read line names; these are the mentions.
pub fn of_settings<'a>(
    mentions: impl Iterator<Item = &'a Mention<'a>>,
    settings: &Settings,
) -> Option<Note> {
    let named: HashSet<&[u8]> = mentions.map(|mention| mention.name).collect();
    let all = settings.places.iter();
    let unused: Vec<String> = all
        .filter(|(name, _)| !named.contains(name.as_slice()))
        .map(|(name, place)| format!("{} ({place})", escaped(name)))
        .collect();
    let more = match unused.len().saturating_sub(MAX_LISTED) {
        0 => String::new(),
        more => format!(", and {more} more"),
    };
    let listed = unused[..unused.len().min(MAX_LISTED)].join(", ");
    (!unused.is_empty()).then(|| Note {
        kind: "unused-settings",
        file: None,
        line: 0,
        column: 0,
        name: None,
        text: format!("no read directive names these settings: {listed}{more}"),
    })
}
