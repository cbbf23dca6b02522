//! What `select` says on standard error.

use super::forms::kept;
use crate::examined::Examined;
use crate::notes::{self, messages, Note};
use crate::settings::Settings;
use crate::terminal::lines;

/// The notes of a run.
pub struct Report {
    /// Those of each file.
    pub of_files: Vec<Vec<Note>>,
    /// Those of no file.
    pub of_run: Vec<Note>,
}

impl Report {
    /// The report with all notes; `warns_old` is for those on what the new edition would refuse.
    pub fn new(files: &[Examined], settings: &Settings, warns_old: bool) -> Report {
        let mentions: Vec<Vec<_>> = files
            .iter()
            .map(|one| one.read_mentions().collect())
            .collect();
        let of_file =
            |(file, mentions): (_, &Vec<_>)| notes::of_file(file, mentions, settings, warns_old);
        // In a file that is refused it is not known which directives are read.
        let is_refused = files.iter().any(|file| file.outcome.is_err());
        let named = mentions.iter().flatten().map(|(_, mention)| mention);
        let unused = notes::of_settings(named, settings).filter(|_| !is_refused);
        Report {
            of_files: files.iter().zip(&mentions).map(of_file).collect(),
            of_run: unused.into_iter().collect(),
        }
    }

    /// The report of a quiet run.
    pub fn without_notes(files: &[Examined]) -> Report {
        Report {
            of_files: files.iter().map(|_| Vec::new()).collect(),
            of_run: Vec::new(),
        }
    }

    /// How many notes there are.
    pub fn count(&self) -> usize {
        self.of_files.iter().map(Vec::len).sum::<usize>() + self.of_run.len()
    }

    /// The refusals and the notes, file by file; the summary of several files; and why nothing is written if a note is enough for that.
    pub fn text(&self, files: &[Examined], loudness: Option<&str>) -> String {
        let mut text = String::new();
        for (file, notes) in files.iter().zip(&self.of_files) {
            if let Err(refused) = &file.outcome {
                text += &refused.text;
            }
            text += &messages(notes);
        }
        text += &messages(&self.of_run);
        if files.len() > 1 && loudness != Some("--quiet") {
            text += &self.summary(files);
        }
        if loudness == Some("--strict") && self.count() > 0 {
            let notes = counted(self.count(), "note");
            text += &format!("korzhinay: {notes} under --strict, so nothing is written\n");
        }
        text
    }

    /// One line on several files.
    fn summary(&self, files: &[Examined]) -> String {
        let refused = files.iter().filter(|file| file.outcome.is_err()).count();
        let all: usize = files.iter().map(|file| lines(&file.bytes).count()).sum();
        let kept: usize = files.iter().map(kept).sum();
        let outcome = match refused {
            0 => format!("{kept} of {all} lines kept"),
            _ => format!("{refused} refused, no lines written"),
        };
        let (files, notes) = (counted(files.len(), "file"), counted(self.count(), "note"));
        format!("korzhinay: {files}, {outcome}, {notes}\n")
    }
}

fn counted(count: usize, word: &str) -> String {
    match count {
        1 => format!("1 {word}"),
        _ => format!("{count} {word}s"),
    }
}
