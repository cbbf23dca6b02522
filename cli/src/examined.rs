//! A description file that the library has judged.

use crate::description::{define, mentions, Define, Mention};
use crate::library::{self, mark, Selection, Terms};
use crate::refusals::of_file;
use crate::terminal::{escaped, lines, read, without_end, Error, Refused};

pub struct Examined<'a> {
    /// As it was given.
    pub name: &'a [u8],
    pub bytes: Vec<u8>,
    pub outcome: Result<Selection, Refused>,
}

impl<'a> Examined<'a> {
    /// Reads files and selects their lines.
    pub fn all(names: &[&'a [u8]], terms: Terms) -> Result<Vec<Examined<'a>>, Error> {
        let mut files = Vec::new();
        for name in names {
            files.push(Examined::read(name, terms)?);
        }
        Ok(files)
    }

    fn read(name: &'a [u8], terms: Terms) -> Result<Examined<'a>, Error> {
        let bytes = read(name)?;
        let outcome = library::select(&bytes, terms);
        let outcome = outcome.map_err(|refusal| of_file(name, &bytes, terms, &refusal));
        let here = lines(&bytes).count();
        let there = outcome.as_ref().map_or(here, |found| found.marks.len());
        if here != there {
            // Both split the file by the same rule; if they ever differ, no line may be lost.
            let name = escaped(name);
            return Err(Error::Failed(format!(
                "{name}: {here} lines and {there} marks"
            )));
        }
        Ok(Examined {
            name,
            bytes,
            outcome,
        })
    }

    /// The lines with their ends and marks; none if the file is refused.
    pub fn marked(&self) -> impl Iterator<Item = (&[u8], u8)> {
        let marks = self.outcome.as_ref().map(|found| found.marks.as_slice());
        lines(&self.bytes).zip(marks.unwrap_or_default().iter().copied())
    }

    /// All lines without their ends, each with its number, and whether it is read; this is not known in a file that is refused.
    pub fn numbered(&self) -> impl Iterator<Item = (usize, Option<bool>, &[u8])> {
        let marks = self.outcome.as_ref().ok().map(|found| &found.marks);
        let of_line = move |(at, line)| {
            let is_read = marks.map(|marks| is_read(marks[at]));
            (at + 1, is_read, without_end(line))
        };
        lines(&self.bytes).enumerate().map(of_line)
    }

    /// The directives and `DEFINE` lines that are read, each with its number.
    pub fn read_lines(&self) -> impl Iterator<Item = (usize, &[u8])> {
        let numbered = (1..).zip(self.marked());
        numbered.filter_map(|(number, (line, mark))| {
            let text = without_end(line);
            is_read(mark).then_some((number, text))
        })
    }

    /// What the lines name that are read, with the number of the line. The text of no other line is looked at.
    pub fn read_mentions(&self) -> impl Iterator<Item = (usize, Mention<'_>)> {
        self.read_lines().flat_map(|(number, line)| {
            let all = mentions(line).into_iter();
            all.map(move |mention| (number, mention))
        })
    }

    /// The lines that set a macro, each with its number and what it sets.
    pub fn definitions(&self) -> impl Iterator<Item = (usize, &[u8], Define<'_>)> {
        let numbered = (1..).zip(self.marked());
        numbered
            .filter(|(_, (_, mark))| *mark == mark::DEFINE)
            .filter_map(|(number, (line, _))| {
                let text = without_end(line);
                Some((number, text, define(text)?.ok()?))
            })
    }
}

/// Whether a mark is that of a line that is kept.
pub fn is_kept(mark: u8) -> bool {
    matches!(mark, mark::KEPT | mark::DEFINE)
}

/// Whether a mark is that of a directive that is read, or of a `DEFINE` line that is kept, which counts as one.
fn is_read(mark: u8) -> bool {
    matches!(
        mark,
        mark::NOT_TAKEN | mark::TAKEN | mark::END | mark::DEFINE
    )
}
