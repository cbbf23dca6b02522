//! What is set at a line of a description file: the settings of the run, and over them what the `DEFINE` lines above it set. The library
//! settles this for itself; here it is found out once more, through its calls, for messages and lists.

use std::collections::{BTreeMap, BTreeSet};

use crate::description::{bare_words_of_line, define, directive, mentions};
use crate::library::{evaluate, mark, select, Edition, Terms};
use crate::settings::{encode, records, stored_name};

pub struct Scope {
    edition: Edition,
    set: BTreeMap<Vec<u8>, Setting>,
}

struct Setting {
    record: Vec<u8>,
    /// The `DEFINE` line that set it, if one did.
    line: Option<usize>,
}

impl Scope {
    /// The scope at the first line.
    pub fn new(terms: Terms) -> Scope {
        let setting = |record: &[u8]| {
            let (record, line) = (record.to_vec(), None);
            (stored_name(&record).to_vec(), Setting { record, line })
        };
        Scope {
            edition: terms.edition,
            set: records(terms.table).map(setting).collect(),
        }
    }

    /// The scope after these lines, of which none is refused; nothing if it cannot be found out, as at a limit.
    pub fn after(lines: &[&[u8]], terms: Terms) -> Option<Scope> {
        let mut scope = Scope::new(terms);
        // Other lines change nothing.
        let numbered = (1..).zip(lines.iter().copied());
        let counted: Vec<(usize, &[u8])> = numbered
            .filter(|(_, line)| directive(line).is_some() || define(line).is_some())
            .collect();
        if counted.iter().all(|(_, line)| directive(line).is_some()) {
            return Some(scope);
        }
        let file = closed(counted.iter().map(|(_, line)| *line));
        let marks = select(&file, terms).ok()?.marks;
        for ((number, line), mark) in counted.into_iter().zip(marks) {
            if mark == mark::DEFINE {
                scope.obey(number, line)?;
            }
        }
        Some(scope)
    }

    /// Goes past a `DEFINE` line that is kept. What it sets is a record, which is a table of its own.
    pub fn obey(&mut self, number: usize, line: &[u8]) -> Option<&[u8]> {
        let found = define(line)?.ok()?;
        let table = self.table_for(line);
        let terms = Terms {
            table: &table,
            edition: self.edition,
        };
        let value = evaluate(&line[found.text..], terms).ok()?.value;
        let setting = Setting {
            record: encode(found.name, &value).ok()?,
            line: Some(number),
        };
        self.set.insert(found.name.to_vec(), setting);
        self.record(found.name)
    }

    /// The settings that a line names, as a table. More may be set than a table holds, but no expression names so many.
    pub fn table_for(&self, line: &[u8]) -> Vec<u8> {
        let named = mentions(line).into_iter().map(|mention| mention.name);
        let words = bare_words_of_line(line).into_iter().map(|(_, word)| word);
        let names: BTreeSet<&[u8]> = named.chain(words).collect();
        let records: Vec<&[u8]> = names.iter().filter_map(|name| self.record(name)).collect();
        records.concat()
    }

    /// The record of a name that is set.
    pub fn record(&self, name: &[u8]) -> Option<&[u8]> {
        self.set.get(name).map(|setting| setting.record.as_slice())
    }

    /// The line that has set a macro last.
    pub fn line_of(&self, name: &[u8]) -> Option<usize> {
        self.set.get(name)?.line
    }
}

/// A file of lines, with an `!endif` for each group that is open after them.
fn closed<'a>(lines: impl Iterator<Item = &'a [u8]>) -> Vec<u8> {
    let mut file = Vec::new();
    let mut open = 0_usize;
    for line in lines {
        match directive(line).map(|found| found.word) {
            Some(b"if" | b"ifdef" | b"ifndef") => open += 1,
            Some(b"endif") => open = open.saturating_sub(1),
            _ => {}
        }
        // A CR at its end is in a comment, if the line is read at all, so it may become a part of the line's end.
        file.extend(line);
        file.push(b'\n');
    }
    file.extend(b"!endif\n".repeat(open));
    file
}
