//! The settings of the benchmark: 500 numbers, as a table, and some of them as text that commands read.

use std::iter;

use bindings::limit::RECORD_BYTES;

pub fn names() -> Vec<String> {
    (0..500).map(name).collect()
}

fn name(index: usize) -> String {
    format!("SETTING_{index:04}")
}

pub fn table() -> Vec<u8> {
    names()
        .iter()
        .enumerate()
        .flat_map(|(i, name)| record(name, i as u64))
        .collect()
}

/// The first settings, each with nine more after it that no file uses: ten times as many records, those in use spread among them.
pub fn spread(set: usize) -> Vec<u8> {
    let others = |i| (1..10).map(move |other| record(&format!("{}_{other}", name(i)), 0));
    (0..set)
        .flat_map(|i| iter::once(record(&name(i), i as u64)).chain(others(i)))
        .flatten()
        .collect()
}

pub fn record(name: &str, value: u64) -> [u8; RECORD_BYTES] {
    let mut record = [0; RECORD_BYTES];
    record[..name.len()].copy_from_slice(name.as_bytes());
    record[65] = 8;
    record[72..80].copy_from_slice(&value.to_le_bytes());
    record
}

/// The first settings, as the command reads them.
pub fn text(set: usize) -> String {
    (0..set).map(|i| format!("{}={i}\n", name(i))).collect()
}

/// The first settings, as C reads them; the names after these are undefined, so that unifdef decides
/// them too.
pub fn in_c(set: usize, named: usize) -> String {
    let line = |i| match i < set {
        true => format!("#define {} {i}\n", name(i)),
        false => format!("#undef {}\n", name(i)),
    };
    (0..named).map(line).collect()
}

/// The same as options of unifdef.
pub fn options(set: usize, named: usize) -> Vec<String> {
    let option = |i| match i < set {
        true => format!("-D{}={i}", name(i)),
        false => format!("-U{}", name(i)),
    };
    (0..named).map(option).collect()
}
