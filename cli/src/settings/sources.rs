//! Where the settings of a run come from, and the table that they make together.

use std::collections::{BTreeMap, BTreeSet};

use super::record::{records, stored_name};
use super::setting::Setting;
use super::{definition, file};
use crate::library::limit::MAX_RECORDS;
use crate::library::{check_table, lookup};
use crate::refusals::of_table;
use crate::terminal::{escaped, read, Error};

/// A ready table, files of settings, and definitions on the command line; each overrides those before it.
pub struct Sources<'a> {
    pub table: Option<&'a [u8]>,
    pub files: Vec<&'a [u8]>,
    pub definitions: Vec<Definition<'a>>,
}

/// What -D or -U gives.
pub enum Definition<'a> {
    Set(&'a [u8]),
    Unset(&'a [u8]),
}

/// All settings of a run.
pub struct Settings {
    /// Well formed.
    pub table: Vec<u8>,
    /// The option of the ready table, if there is one.
    ready: Option<String>,
    /// The names that are set as text, each with the place where that was done last.
    pub places: BTreeMap<Vec<u8>, String>,
    /// The names that are meant to be unset.
    pub unset: BTreeSet<Vec<u8>>,
}

impl Settings {
    /// Whether a name is set, or meant to be unset.
    pub fn knows(&self, name: &[u8]) -> bool {
        self.unset.contains(name) || lookup(&self.table, name).is_some()
    }

    /// Where a name that is set has its value from.
    pub fn origin(&self, name: &[u8]) -> Option<&str> {
        let place = self.places.get(name).or(self.ready.as_ref());
        place.map(String::as_str)
    }
}

impl Sources<'_> {
    pub fn is_empty(&self) -> bool {
        self.table.is_none() && !self.has_text()
    }

    /// Whether some settings are given as text.
    fn has_text(&self) -> bool {
        !self.files.is_empty() || !self.definitions.is_empty()
    }

    /// The table of all settings, well formed.
    pub fn merged(&self) -> Result<Vec<u8>, Error> {
        self.settings().map(|settings| settings.table)
    }

    pub fn settings(&self) -> Result<Settings, Error> {
        let ready = match self.table {
            Some(file) => checked(read(file)?, file)?,
            None => Vec::new(),
        };
        let mut settings = Settings {
            table: ready,
            ready: self.table.map(|file| format!("-t {}", escaped(file))),
            places: BTreeMap::new(),
            unset: BTreeSet::new(),
        };
        if self.has_text() {
            let merged = self.merge(&mut settings)?;
            settings.table = checked(merged, b"settings")?;
        }
        Ok(settings)
    }

    /// The records of the ready table with those that are set as text; the places and the unset names are filled in.
    fn merge(&self, settings: &mut Settings) -> Result<Vec<u8>, Error> {
        // Names without padding have the same order as padded ones.
        let named = |record: &[u8]| (stored_name(record).to_vec(), record.to_vec());
        let mut merged: BTreeMap<_, _> = records(&settings.table).map(named).collect();
        for step in self.steps()? {
            match step {
                Step::Set(Setting { record, place }) => {
                    let (name, record) = named(&record);
                    settings.unset.remove(&name);
                    merged.insert(name.clone(), record);
                    if merged.len() > MAX_RECORDS {
                        let reason =
                            format!("one name more than the {MAX_RECORDS} that a table holds");
                        return Err(Error::Failed(format!("{place}: {reason}")));
                    }
                    settings.places.insert(name, place);
                }
                Step::Unset(name) => {
                    merged.remove(&name);
                    settings.places.remove(&name);
                    settings.unset.insert(name);
                }
            }
        }
        Ok(merged.into_values().collect::<Vec<_>>().concat())
    }

    /// What is given as text, in the order in which it applies.
    fn steps(&self) -> Result<Vec<Step>, Error> {
        let mut steps = Vec::new();
        for file in &self.files {
            steps.extend(file::read(file)?.into_iter().map(Step::Set));
        }
        for definition in &self.definitions {
            steps.push(match definition {
                Definition::Set(text) => Step::Set(definition::read(text)?),
                Definition::Unset(name) => Step::Unset(definition::name(name)?.to_vec()),
            });
        }
        Ok(steps)
    }
}

/// One change of the settings.
enum Step {
    Set(Setting),
    Unset(Vec<u8>),
}

/// A table, if the library finds it well formed.
fn checked(table: Vec<u8>, name: &[u8]) -> Result<Vec<u8>, Error> {
    match check_table(&table) {
        None => Ok(table),
        Some(number) => Err(of_table(name, number)),
    }
}
