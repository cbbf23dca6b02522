//! The table of settings (document 01, The table of settings).

use crate::bytes::{count_while, is_name};

pub const RECORD: usize = 128;
pub const MAX_RECORDS: usize = 512;
pub const NAME: usize = 64;
pub const CONTENT: usize = 72;

/// The most bytes of a string.
pub const MAX_STRING: usize = RECORD - CONTENT;

const KIND_AT: usize = 64;
const LENGTH_AT: usize = 65;
const UNUSED: std::ops::Range<usize> = 66..72;

const NUMBER: u8 = 0;
const TEXT: u8 = 1;
const WIDE: u8 = 2;

/// What a record holds. A string is given by its place in the table.
#[derive(Clone, Copy, Debug, PartialEq, Eq)]
pub enum Setting {
    Number(u64),
    Text { start: usize, len: usize },
    Wide { start: usize, len: usize },
}

/// Whether the table keeps all its rules. An empty table does.
pub fn is_well_formed(table: &[u8]) -> bool {
    let (records, rest) = table.as_chunks::<RECORD>();
    rest.is_empty()
        && records.len() <= MAX_RECORDS
        && records.iter().all(is_well_formed_record)
        && records
            .windows(2)
            .all(|pair| pair[0][..NAME] < pair[1][..NAME])
}

fn is_well_formed_record(record: &[u8; RECORD]) -> bool {
    let (name, padding) = split_name(record);
    let length = usize::from(record[LENGTH_AT]);
    let length_fits = match record[KIND_AT] {
        NUMBER => length == 8,
        TEXT | WIDE => length <= MAX_STRING,
        _ => false,
    };
    is_name(name)
        && all_zero(padding)
        && length_fits
        && all_zero(&record[UNUSED])
        && all_zero(&record[CONTENT + length..])
}

/// The name, which ends at the first zero byte, and what follows it.
fn split_name(record: &[u8; RECORD]) -> (&[u8], &[u8]) {
    let field = &record[..NAME];
    field.split_at(count_while(field, |byte| byte != 0))
}

fn all_zero(bytes: &[u8]) -> bool {
    bytes.iter().all(|&byte| byte == 0)
}

/// The setting of this name.
///
/// In a malformed table any setting may be found or missed, but a string
/// still lies inside the table.
pub fn lookup(table: &[u8], name: &[u8]) -> Option<Setting> {
    // No record can have such a name. Without this check the padding below
    // would make `A` and `A` with a zero byte the same.
    if name.is_empty() || name.len() > NAME || name.contains(&0) {
        return None;
    }
    let mut padded = [0; NAME];
    padded[..name.len()].copy_from_slice(name);

    let (records, _) = table.as_chunks::<RECORD>();
    let index = records
        .binary_search_by(|record| record[..NAME].cmp(&padded))
        .ok()?;
    let record = &records[index];
    let start = index * RECORD + CONTENT;
    let len = usize::from(record[LENGTH_AT]).min(MAX_STRING);
    match record[KIND_AT] {
        NUMBER => {
            let (content, _) = record[CONTENT..].as_chunks::<8>();
            Some(Setting::Number(u64::from_le_bytes(content[0])))
        }
        TEXT => Some(Setting::Text { start, len }),
        WIDE => Some(Setting::Wide { start, len }),
        _ => None,
    }
}
