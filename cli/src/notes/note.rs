//! What a note says, and how it is shown.

use crate::terminal::{escaped, Json};

pub struct Note {
    /// One word for programs.
    pub kind: &'static str,
    /// None if the note is about the run.
    pub file: Option<Vec<u8>>,
    /// Counted from 1; 0 without a file.
    pub line: usize,
    /// Counted in bytes from 1; 0 without a file.
    pub column: usize,
    /// The name that the note is about.
    pub name: Option<Vec<u8>>,
    pub text: String,
}

impl Note {
    /// The note in one line, as compilers write theirs, so that editors find the place.
    fn message(&self) -> String {
        let (line, column, text) = (self.line, self.column, &self.text);
        match &self.file {
            Some(file) => format!("{}:{line}:{column}: note: {text}\n", escaped(file)),
            None => format!("korzhinay: note: {text}\n"),
        }
    }

    fn json(&self) -> Json {
        let text = |bytes: &Option<Vec<u8>>| bytes.as_ref().map_or(Json::Null, Json::text);
        Json::Object(vec![
            ("kind", Json::text(self.kind)),
            ("file", text(&self.file)),
            ("line", Json::Number(self.line as u64)),
            ("column", Json::Number(self.column as u64)),
            ("name", text(&self.name)),
            ("text", Json::text(&self.text)),
        ])
    }
}

/// Notes as standard error has them.
pub fn messages(notes: &[Note]) -> String {
    notes.iter().map(Note::message).collect()
}

/// Notes as --json has them.
pub fn json(notes: &[Note]) -> Json {
    Json::List(notes.iter().map(Note::json).collect())
}
