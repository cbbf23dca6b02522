//! Notes on `DEFINE` lines that set a macro otherwise than the run was told to.

use std::collections::HashSet;

use super::note::Note;
use crate::description::Mention;
use crate::examined::Examined;
use crate::library::{lookup, Edition, Terms};
use crate::scope::Scope;
use crate::settings::Settings;
use crate::terminal::escaped;

/// One note for each such macro, at the first line that sets it so.
pub fn notes(file: &Examined, mentions: &[(usize, Mention)], settings: &Settings) -> Vec<Note> {
    let mut notes = Vec::new();
    let mut all = file.definitions();
    if !all.any(|(_, _, found)| settings.knows(found.name)) {
        return notes;
    }
    // The lines are accepted, so their values are those of the old edition in any case.
    let mut scope = Scope::new(Terms {
        table: &settings.table,
        edition: Edition::Old,
    });
    let mut seen = HashSet::new();
    for (line, text, found) in file.definitions() {
        let name = found.name;
        let record = scope.obey(line, text).unwrap_or_default();
        let said = match lookup(&settings.table, name) {
            Some(value) => {
                (lookup(record, name) != Some(value)).then(|| over_setting(name, settings))
            }
            None if settings.unset.contains(name) => {
                (!is_asked_before(line, name, mentions)).then(|| over_unset(name))
            }
            None => None,
        };
        notes.extend(said.filter(|_| seen.insert(name)).map(|text| Note {
            kind: "define-overrides",
            file: Some(file.name.to_vec()),
            line,
            column: found.name_at + 1,
            name: Some(name.to_vec()),
            text,
        }));
    }
    notes
}

/// Whether a read `!ifdef` or `!ifndef` above a line asks for a macro: a line that sets it then is the file's own answer.
fn is_asked_before(line: usize, name: &[u8], mentions: &[(usize, Mention)]) -> bool {
    let mut above = mentions.iter().take_while(|(at, _)| *at < line);
    above.any(|(_, mention)| mention.name == name && matches!(mention.word, b"ifdef" | b"ifndef"))
}

fn over_setting(name: &[u8], settings: &Settings) -> String {
    let (shown, origin) = (escaped(name), settings.origin(name).unwrap_or_default());
    format!(
        "`DEFINE` overrides the setting of {shown} ({origin}): here the file wins, in EDK II's build -D does; delete the line, \
         or put it between `!ifndef {shown}` and `!endif`"
    )
}

fn over_unset(name: &[u8]) -> String {
    let shown = escaped(name);
    format!("`DEFINE` sets {shown}, which -U leaves unset: here the file wins; delete the line, or leave out -U {shown}")
}
