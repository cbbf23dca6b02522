//! What an accepted run reads.

use oracle::definition::{after_define, shape, Definition};
use oracle::lines::{lines, sort, Line, Word};
use oracle::selection::mark;

/// Word and argument of the directives that are read and begin a branch, by the
/// marks of an accepted file. The marks of a refused one have no such directive.
pub fn branches<'a>(
    file: &'a [u8],
    marks: &'a [u8],
) -> impl Iterator<Item = (Word, &'a [u8])> + use<'a> {
    lines(file)
        .zip(marks)
        .filter(|(_, mark)| matches!(**mark, mark::TAKEN | mark::NOT_TAKEN))
        .filter_map(|(line, _)| match sort(line) {
            Ok(Line::Directive { word, argument }) => Some((word, argument)),
            _ => None,
        })
}

/// The DEFINE lines that are kept and set a macro.
pub fn definitions<'a>(
    file: &'a [u8],
    marks: &'a [u8],
) -> impl Iterator<Item = Definition<'a>> + use<'a> {
    lines(file)
        .zip(marks)
        .filter(|(_, mark)| **mark == mark::DEFINE)
        .filter_map(|(line, _)| shape(after_define(line)?))
}
