//! A first file or table with a change in what an accepted run reads, so that
//! it is seen whether such a change shows.

use std::collections::BTreeSet;

use oracle::lines::{lines, sort, Line, Word};
use oracle::selection::mark;
use oracle::table::RECORD;
use oracle::Edition;

use super::tables::name_in;
use crate::prng::Prng;

/// The file with one read directive changed so that its mark is another, or
/// its text is malformed; or a kept DEFINE line become another one or none; or a
/// kept line become one. None if there is no such line.
pub fn file(rng: &mut Prng, file: &[u8], marks: &[u8], edition: Edition) -> Option<Vec<u8>> {
    let least = rng.pick(&[mark::NOT_TAKEN, mark::NOT_TAKEN, mark::KEPT]);
    let read: Vec<usize> = (0..marks.len())
        .filter(|&index| marks[index] >= least && marks[index] != mark::UNREAD)
        .collect();
    if read.is_empty() {
        return None;
    }
    let chosen = rng.pick(&read);
    let mut second = Vec::new();
    for (index, line) in lines(file).enumerate() {
        match sort(line) {
            Ok(Line::Directive { word, .. }) if index == chosen => {
                let taken = marks[index] == mark::TAKEN;
                second.extend(other_outcome(rng, word, taken, edition));
            }
            _ if index == chosen => second.extend(other_line(rng, marks[index])),
            _ => second.extend(line),
        }
        second.extend(if line.ends_with(b"\r") {
            &b"\r\n"[..]
        } else {
            b"\n"
        });
    }
    Some(second)
}

/// A line with another mark than this one, or that is refused.
fn other_line(rng: &mut Prng, mark: u8) -> &'static [u8] {
    match mark {
        mark::DEFINE => rng.pick(&[&b"x"[..], b"DEFINED A = 1", b"DEFINE A", b"DEFINE A = @"]),
        _ => rng.pick(&[
            &b"DEFINE"[..],
            b"DEFINE A = 1",
            b"\tDEFINE\tD=''",
            b"DEFINE $(A) = 1",
        ]),
    }
}

fn other_outcome(rng: &mut Prng, word: Word, taken: bool, edition: Edition) -> &'static [u8] {
    // The last of each has old spelling, or nearly so.
    let lines: [&[u8]; 3] = match (word, taken) {
        (Word::If, true) => [b"!if 0", b"!if 0 || 0", b"!if 'a' != a"],
        (Word::If, false) => [b"!if 1", b"!if 0 | 1", b"!if 'a' EQ a"],
        (Word::Elseif, true) => [b"!elif 0", b"!elif 0 | 0", b"!elif 'a' == b"],
        (Word::Elseif, false) => [b"!elif 1", b"!elif 1 || 0", b"!elif 'a' NE b"],
        (Word::Ifdef, _) if edition == Edition::New => [b"!ifdef a", b"!ifdef", b"!ifdef $(A)"],
        (Word::Ifndef, _) if edition == Edition::New => [b"!ifndef", b"!ifndef a", b"!ifndef $(A)"],
        (Word::Ifdef, _) => [b"!ifdef a", b"!ifdef A || B", b"!ifdef $(A"],
        (Word::Ifndef, _) => [b"!ifndef", b"!ifndef A | B", b"!ifndef $(A)B"],
        (Word::Else, _) => [b"!else x", b"!else |", b"!else $(A)"],
        (Word::Endif, _) => [b"!endif x", b"!endif ||", b"!endif $(A)"],
    };
    rng.pick(&lines)
}

/// The table without one of the records that are named. None if it has none.
pub fn table(rng: &mut Prng, table: &[u8], named: &BTreeSet<Vec<u8>>) -> Option<Vec<u8>> {
    let records = table.as_chunks::<RECORD>().0;
    let present: Vec<usize> = (0..records.len())
        .filter(|&index| named.contains(name_in(&records[index])))
        .collect();
    if present.is_empty() {
        return None;
    }
    let mut second = records.to_vec();
    second.remove(rng.pick(&present));
    Some(second.concat())
}
