//! The form of a message.

use super::excerpt::excerpt;
use super::expression::PLACED;
use super::meanings;
use crate::terminal::{escaped, Error, Json, Refused};

/// A refusal as it is printed: `NAME:LINE:COLUMN: refused (NUMBER): meaning`, as compilers write it, so that editors find the place. The
/// column counts bytes from 1. What is of no line is at 1:1: without both numbers Vim takes `NAME: refused ` for a file.
pub struct Message<'a> {
    pub name: &'a [u8],
    pub line: usize,
    pub number: u8,
    /// The text of the line or the expression, and the offset of the place in it.
    pub place: Option<(&'a [u8], usize)>,
    /// What else is known, in one line.
    pub hint: Option<String>,
}

impl Message<'_> {
    /// The message as the end of a run.
    pub fn error(&self) -> Error {
        Error::Refused(self.refused())
    }

    pub fn refused(&self) -> Refused {
        let (line, number) = (self.line.max(1), self.number);
        let (name, meaning) = (escaped(self.name), meanings::refusal(number));
        let column = self.place.map_or(1, |(_, offset)| offset + 1);
        let mut text = format!("{name}:{line}:{column}: refused ({number}): {meaning}\n");
        if let Some((shown, offset)) = self.place.filter(|(shown, _)| !shown.is_empty()) {
            text += &excerpt(shown, offset);
        }
        if let Some(hint) = &self.hint {
            text += &format!("    {hint}\n");
        }
        Refused {
            text,
            json: self.json(line, column),
        }
    }

    /// The refusal for --json, with the line and the column of the message. The offset is the library's.
    fn json(&self, line: usize, column: usize) -> Json {
        let place = self.place.filter(|_| PLACED.contains(&self.number));
        let offset = place.map_or(0, |(_, offset)| offset);
        Json::Object(vec![
            ("number", Json::Number(self.number.into())),
            ("meaning", Json::text(meanings::refusal(self.number))),
            ("line", Json::Number(line as u64)),
            ("column", Json::Number(column as u64)),
            ("offset", Json::Number(offset as u64)),
            ("hint", self.hint.as_ref().map_or(Json::Null, Json::text)),
        ])
    }
}
