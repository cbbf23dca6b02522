//! What DEFINE lines did in the files that were compared (document 02, order 6).
//! It shows something only if many are obeyed, and if branches hang on them.

use std::collections::BTreeSet;

use oracle::definition::{after_define, Definition};
use oracle::lines::{lines, sort, Line, Word};
use oracle::refusal;
use oracle::selection::mark;
use oracle::settings::MAX_DEFINED;
use oracle::table::MAX_STRING;
use oracle::tokens::code;
use oracle::{Edition, Value};

use crate::read;
use crate::report::Tally;

/// The refusals that a DEFINE line can have and other plain lines cannot: those
/// of its expression, and three of its own.
fn refusals() -> impl Iterator<Item = u8> {
    let own = [
        refusal::ARGUMENT,
        refusal::DEFINED_COUNT,
        refusal::DEFINED_LENGTH,
    ];
    (refusal::TOKEN..=refusal::DIVISOR).chain(own)
}

/// How often something was met in accepted files, unless it is about refusals.
pub struct Definitions {
    /// Files with a line that sets a macro.
    pub files: u64,
    /// Lines that set a macro.
    pub obeyed: u64,
    /// Those that set one which a line above had set.
    pub again: u64,
    /// Those that set one which the table has too.
    pub over_table: u64,
    /// Those with a bare word, which only the old edition takes.
    pub bare_words: u64,
    /// Those whose value is written as a string of as many bytes as it may have.
    pub longest: u64,
    /// Files that set as many macros as they may.
    pub full: u64,
    /// Lines that are dropped and whose first word is `DEFINE`.
    pub dropped: u64,
    /// Read `!if` and `!elseif` with another outcome under the table alone.
    pub decided_values: u64,
    /// Those that are refused under the table alone.
    pub decided_kinds: u64,
    /// Read `!ifdef` and `!ifndef` with another outcome under the table alone.
    pub decided_names: u64,
    /// Refusals in a line whose first word is `DEFINE`, by number.
    pub refused: [u64; 256],
}

impl Definitions {
    pub fn new() -> Definitions {
        Definitions {
            files: 0,
            obeyed: 0,
            again: 0,
            over_table: 0,
            bare_words: 0,
            longest: 0,
            full: 0,
            dropped: 0,
            decided_values: 0,
            decided_kinds: 0,
            decided_names: 0,
            refused: [0; 256],
        }
    }

    pub fn besides(&self) -> [(u64, &'static str); 11] {
        [
            (self.files, "accepted with DEFINE lines that set macros"),
            (self.obeyed, "DEFINE lines in them"),
            (self.again, "of these of a macro that was set before"),
            (self.over_table, "of one that the table has"),
            (self.bare_words, "with a bare word"),
            (self.longest, "with a string of 56 bytes"),
            (self.full, "files with 64 macros"),
            (self.dropped, "DEFINE lines dropped"),
            (self.decided_values, "`!if` decided by DEFINE lines"),
            (self.decided_kinds, "`!if` accepted by DEFINE lines"),
            (self.decided_names, "`!ifdef` decided by DEFINE lines"),
        ]
    }
}

/// Counts the refusal of this line, counted from 1, if its first word is `DEFINE`.
pub fn count_refusal(file: &[u8], number: u8, line: u64, tally: &mut Tally) {
    let index = (line as usize).checked_sub(1);
    let line = index.and_then(|index| lines(file).nth(index));
    if line.is_some_and(|line| after_define(line).is_some()) {
        tally.definitions.refused[usize::from(number)] += 1;
    }
}

/// Counts what an accepted file does, by its marks.
pub fn count_accepted(
    file: &[u8],
    table: &[u8],
    edition: Edition,
    marks: &[u8],
    tally: &mut Tally,
) {
    let tally = &mut tally.definitions;
    let is_dropped =
        |(line, mark): &(&[u8], &u8)| **mark == mark::DROPPED && after_define(line).is_some();
    tally.dropped += lines(file).zip(marks).filter(is_dropped).count() as u64;
    let mut names = BTreeSet::new();
    for Definition { name, expression } in read::definitions(file, marks) {
        tally.obeyed += 1;
        tally.again += u64::from(!names.insert(name));
        tally.over_table += u64::from(oracle::lookup(table, name).is_some());
        let tokens = oracle::scan(expression, edition).tokens;
        let is_bare = tokens.iter().any(|token| token.code == code::BARE);
        tally.bare_words += u64::from(is_bare);
        tally.longest += u64::from(is_longest(expression, edition));
    }
    tally.files += u64::from(!names.is_empty());
    tally.full += u64::from(names.len() == MAX_DEFINED);
    if names.is_empty() {
        return;
    }
    for (line, &mark) in lines(file).zip(marks) {
        let is_read = matches!(mark, mark::TAKEN | mark::NOT_TAKEN);
        match sort(line) {
            Ok(Line::Directive { word, argument }) if is_read => {
                count_decided(word, argument, mark, table, edition, tally);
            }
            _ => {}
        }
    }
}

/// Counts a read directive if its mark is another under the table alone.
fn count_decided(
    word: Word,
    argument: &[u8],
    mark: u8,
    table: &[u8],
    edition: Edition,
    tally: &mut Definitions,
) {
    let (front, decided) = match word {
        Word::If | Word::Elseif => (&b"!if"[..], &mut tally.decided_values),
        Word::Ifdef => (&b"!ifdef"[..], &mut tally.decided_names),
        Word::Ifndef => (&b"!ifndef"[..], &mut tally.decided_names),
        Word::Else | Word::Endif => return,
    };
    let alone = [front, argument, b"\n!endif"].concat();
    let mut marks = [0; 2];
    match oracle::select(&alone, table, edition, &mut marks) {
        Ok(_) => *decided += u64::from(marks[0] != mark),
        Err(_) => tally.decided_kinds += 1,
    }
}

/// Whether the expression is such a string by itself.
fn is_longest(expr: &[u8], edition: Edition) -> bool {
    match oracle::evaluate(expr, b"", edition).map(|outcome| outcome.value) {
        Ok(Value::Text(bytes) | Value::Wide(bytes)) => bytes.len() == MAX_STRING,
        _ => false,
    }
}

/// What a subject lacks if its random files were hardly accepted with DEFINE
/// lines that matter, or if one of the things that are counted never occurred.
pub fn lack_in_accepted(random: &Tally) -> Option<String> {
    let counts = &random.definitions;
    let mut besides = counts.besides().into_iter();
    if let Some((_, what)) = besides.find(|(times, _)| *times == 0) {
        return Some(format!("never counted: {what}"));
    }
    let files = random.met(0);
    let [obeyed, values, names] = [counts.files, counts.decided_values, counts.decided_names];
    let rare = obeyed < files / 2 || values < files / 10 || names < files / 10;
    rare.then(|| {
        format!("of {files} accepted files, {obeyed} had DEFINE lines, by which {values} `!if` and {names} `!ifdef` were decided")
    })
}

/// What a subject lacks if a DEFINE line was never refused with one of its
/// numbers.
pub fn lack_in_refused(random: &Tally) -> Option<String> {
    let refused = &random.definitions.refused;
    let never = refusals().find(|number| refused[usize::from(*number)] == 0);
    never.map(|number| format!("refusal {number} was never met in a DEFINE line"))
}
