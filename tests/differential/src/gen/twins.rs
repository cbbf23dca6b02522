//! A second file and table for a first, as demand 3 allows them: they differ
//! in what an accepted run does not read.

use std::collections::{BTreeMap, BTreeSet};

use oracle::lines::{lines, sort, Line, Word};
use oracle::selection::{mark, MAX_FILE, MAX_LINE, MAX_LINES};
use oracle::table::{MAX_RECORDS, RECORD};
use oracle::tokens::code;
use oracle::Edition;

use super::definitions;
use super::directives::{plain, rubbish, BLANKS};
use super::tables::name_in;
use super::{settings, tables};
use crate::prng::Prng;
use crate::read;

/// What of a file may change. A DEFINE line that is kept may not.
#[derive(Clone, Copy)]
struct Free {
    kept: bool,
    dropped: bool,
    unread: bool,
    ends: bool,
}

/// The marks of a file that the oracle accepts.
pub fn marks(file: &[u8], table: &[u8], edition: Edition) -> Option<Vec<u8>> {
    let mut marks = vec![0; MAX_LINES];
    let (count, _) = oracle::select(file, table, edition, &mut marks).ok()?;
    marks.truncate(count);
    Some(marks)
}

/// The file with other lines that are dropped, and other text after directives
/// that are not read, if it is accepted under the table.
pub fn spoil(rng: &mut Prng, file: &[u8], table: &[u8], edition: Edition) -> Vec<u8> {
    let Some(marks) = marks(file, table, edition) else {
        return file.to_vec();
    };
    let free = Free {
        kept: false,
        dropped: true,
        unread: true,
        ends: false,
    };
    rewrite(rng, file, &marks, free)
}

/// Another file with the same marks.
pub fn file(rng: &mut Prng, file: &[u8], marks: &[u8]) -> Vec<u8> {
    let free = Free {
        kept: !rng.one_in(4),
        dropped: !rng.one_in(4),
        unread: !rng.one_in(4),
        ends: !rng.one_in(4),
    };
    rewrite(rng, file, marks, free)
}

fn rewrite(rng: &mut Prng, file: &[u8], marks: &[u8], free: Free) -> Vec<u8> {
    let mut second = Vec::new();
    let pieces = file.split_inclusive(|&byte| byte == b'\n');
    for ((piece, line), &mark) in pieces.zip(lines(file)).zip(marks) {
        let same = match mark {
            mark::DROPPED => !free.dropped,
            mark::KEPT => !free.kept,
            mark::UNREAD => !free.unread,
            _ => true,
        };
        let bytes = match sort(line) {
            _ if same => line.to_vec(),
            Ok(Line::Directive { word, .. }) => unread(rng, word),
            _ if mark == mark::DROPPED => definitions::dropped(rng),
            _ => plain(rng),
        };
        let end = match &piece[line.len()..] {
            end if !free.ends => end,
            // A CR that is the line's own must not become part of its end.
            _ if bytes.ends_with(b"\r") => b"\r\n",
            _ => rng.pick(&[&b"\n"[..], b"\r\n"]),
        };
        second.extend(&bytes);
        // Without an end it would be no line.
        second.extend(if bytes.is_empty() && end.is_empty() {
            b"\n"
        } else {
            end
        });
    }
    if free.ends && rng.one_in(3) {
        drop_last_end(&mut second);
    }
    match second.len() {
        0..=MAX_FILE => second,
        _ => file.to_vec(),
    }
}

/// The last line may do without its end, if it has bytes besides.
fn drop_last_end(file: &mut Vec<u8>) {
    let line = lines(file).last().map_or(0, <[u8]>::len);
    let end = match &file[..] {
        [.., b'\r', b'\n'] => 2,
        [.., b'\n'] => 1,
        _ => 0,
    };
    if line > 0 {
        file.truncate(file.len() - end);
    }
}

/// A directive with this word and any text.
fn unread(rng: &mut Prng, word: Word) -> Vec<u8> {
    let spelled = match word {
        Word::If => "if",
        Word::Ifdef => "ifdef",
        Word::Ifndef => "ifndef",
        Word::Elseif => rng.pick(&["elseif", "elif"]),
        Word::Else => "else",
        Word::Endif => "endif",
    };
    let mut line = [rng.pick(BLANKS), b"!", spelled.as_bytes(), &rubbish(rng)].concat();
    line.truncate(MAX_LINE);
    line
}

/// The names that the read directives of a file depend on, and the DEFINE lines
/// that are kept.
pub fn named(file: &[u8], marks: &[u8], edition: Edition) -> BTreeSet<Vec<u8>> {
    let mut names = BTreeSet::new();
    for (word, argument) in read::branches(file, marks) {
        match word {
            Word::If | Word::Elseif => names.extend(in_expression(argument, edition)),
            Word::Ifdef | Word::Ifndef => {
                let text = oracle::bytes::skip_blanks(argument);
                let text = text.strip_prefix(b"$(").unwrap_or(text);
                names.insert(text[..oracle::bytes::macro_length(text)].to_vec());
            }
            Word::Else | Word::Endif => {}
        }
    }
    for definition in read::definitions(file, marks) {
        names.extend(in_expression(definition.expression, edition));
    }
    names
}

/// The macros and PCDs among the tokens.
fn in_expression(argument: &[u8], edition: Edition) -> Vec<Vec<u8>> {
    let tokens = oracle::scan(argument, edition).tokens;
    tokens
        .iter()
        .filter_map(|token| {
            let bytes = &argument[token.start..token.start + token.len];
            match token.code {
                code::MACRO => Some(bytes[2..bytes.len() - 1].to_vec()),
                code::PCD => Some(bytes.to_vec()),
                _ => None,
            }
        })
        .collect()
}

/// Another table that has the same records, or none, under these names.
pub fn table(rng: &mut Prng, table: &[u8], named: &BTreeSet<Vec<u8>>) -> Vec<u8> {
    let other = match rng.below(3) {
        0 => tables::valid(rng),
        1 => settings::known(rng),
        _ => Vec::new(),
    };
    let mut second: BTreeMap<Vec<u8>, [u8; RECORD]> = BTreeMap::new();
    for record in table.as_chunks::<RECORD>().0 {
        let name = name_in(record).to_vec();
        if named.contains(&name) || rng.one_in(2) {
            second.insert(name, *record);
        }
    }
    for record in other.as_chunks::<RECORD>().0 {
        let name = name_in(record).to_vec();
        if !named.contains(&name) && second.len() < MAX_RECORDS {
            second.insert(name, *record);
        }
    }
    second.into_values().flatten().collect()
}
