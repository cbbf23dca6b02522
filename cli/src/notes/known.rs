//! What is set at the lines of a file.

use std::collections::HashMap;

use crate::examined::Examined;
use crate::library::lookup;
use crate::settings::{records, stored_name, Settings};

pub struct Known<'a> {
    settings: &'a Settings,
    /// The first line that sets each macro: from the next one on it is set.
    defined: HashMap<&'a [u8], usize>,
}

impl<'a> Known<'a> {
    pub fn new(file: &'a Examined, settings: &'a Settings) -> Known<'a> {
        let mut defined = HashMap::new();
        for (line, _, found) in file.definitions() {
            defined.entry(found.name).or_insert(line);
        }
        Known { settings, defined }
    }

    /// Whether a name is set at a line.
    pub fn is_set(&self, name: &[u8], line: usize) -> bool {
        self.is_defined(name, line) || lookup(&self.settings.table, name).is_some()
    }

    /// Whether a name is set at a line, or meant to be unset.
    pub fn is_settled(&self, name: &[u8], line: usize) -> bool {
        self.is_defined(name, line) || self.settings.knows(name)
    }

    fn is_defined(&self, name: &[u8], line: usize) -> bool {
        self.first_line(name).is_some_and(|first| first < line)
    }

    /// The first line that sets a macro.
    pub fn first_line(&self, name: &[u8]) -> Option<usize> {
        self.defined.get(name).copied()
    }

    /// The names that are set at a line, in no order; one may be there twice.
    pub fn names(&self, line: usize) -> impl Iterator<Item = &[u8]> {
        let above = self.defined.iter().filter(move |(_, first)| **first < line);
        let above = above.map(|(name, _)| *name);
        records(&self.settings.table).map(stored_name).chain(above)
    }
}
