//! What names stand for: the settings of the table and, in a selection, those
//! of the DEFINE lines so far (document 02, order 6).

use std::collections::BTreeMap;

use crate::expression::Value;
use crate::refusal;
use crate::table::{lookup, Setting, MAX_STRING};

/// How many different macros the DEFINE lines of a file may set.
pub const MAX_DEFINED: usize = 64;

/// A table that is known to be well formed, and what DEFINE lines set.
pub(crate) struct Settings<'a> {
    table: &'a [u8],
    defined: BTreeMap<&'a [u8], Value<'a>>,
}

impl<'a> Settings<'a> {
    /// The table's settings alone.
    pub fn of(table: &'a [u8]) -> Settings<'a> {
        Settings {
            table,
            defined: BTreeMap::new(),
        }
    }

    /// What a DEFINE line sets wins over the table.
    pub fn of_macro(&self, name: &[u8]) -> Option<Value<'a>> {
        match self.defined.get(name) {
            Some(value) => Some(*value),
            None => self.in_table(name),
        }
    }

    /// No DEFINE line sets a PCD.
    pub fn of_pcd(&self, name: &[u8]) -> Option<Value<'a>> {
        self.in_table(name)
    }

    fn in_table(&self, name: &[u8]) -> Option<Value<'a>> {
        let table = self.table;
        lookup(table, name).map(|setting| match setting {
            Setting::Number(number) => Value::Number(number),
            Setting::Text { start, len } => Value::Text(&table[start..start + len]),
            Setting::Wide { start, len } => Value::Wide(&table[start..start + len]),
        })
    }

    /// Sets a macro, or gives refusal 28 or 27. Only names that DEFINE lines
    /// set are counted, each of them once.
    pub fn define(&mut self, name: &'a [u8], value: Value<'a>) -> Result<(), u8> {
        match value {
            Value::Text(bytes) | Value::Wide(bytes) if bytes.len() > MAX_STRING => {
                return Err(refusal::DEFINED_LENGTH);
            }
            _ => {}
        }
        if self.defined.len() == MAX_DEFINED && !self.defined.contains_key(name) {
            return Err(refusal::DEFINED_COUNT);
        }
        self.defined.insert(name, value);
        Ok(())
    }
}
