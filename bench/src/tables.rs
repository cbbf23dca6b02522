//! Times the check of a table and a lookup in it.

use std::hint::black_box;

use bindings::limit::RECORD_BYTES;
use bindings::{kind, lookup};
use oracle::Setting;

use crate::settings;
use crate::timing::compare;

/// How many records the tables have in which names are looked up.
const SIZES: [usize; 4] = [1, 8, 50, 500];

pub fn time() {
    let (names, table) = (settings::names(), settings::table());
    check(&names, &table);
    compare(
        "check of a table of 500 records",
        1,
        || {
            black_box(bindings::table(&table));
        },
        || {
            black_box(oracle::is_well_formed(&table));
        },
    );
    for records in SIZES {
        time_lookups(&names[..records], &table[..records * RECORD_BYTES]);
    }
}

/// Every name of a table; each call checks the table first.
fn time_lookups(names: &[String], table: &[u8]) {
    let mut found = [0; 3];
    // Reading the clock takes longer than one lookup in a small table.
    let turns = 500 / names.len();
    compare(
        &format!("check and lookup (all names), records: {}", names.len()),
        turns * names.len(),
        || {
            for name in (0..turns).flat_map(|_| names) {
                lookup(table, name.as_bytes(), &mut found);
                black_box(&found);
            }
        },
        || {
            for name in (0..turns).flat_map(|_| names) {
                black_box(oracle::is_well_formed(table));
                black_box(oracle::lookup(table, name.as_bytes()));
            }
        },
    );
}

/// The check, once.
pub fn once() {
    assert_eq!(bindings::table(&settings::table()), 0);
}

/// The check and the lookup of the last name, once.
pub fn once_last() {
    let names = settings::names();
    let last = names.last().expect("a name");
    let refusal = lookup(&settings::table(), last.as_bytes(), &mut [0; 3]);
    assert_eq!(refusal, 0);
}

/// A lookup of each name of a table of this many records.
pub fn once_each(records: usize) {
    let table = &settings::table()[..records * RECORD_BYTES];
    for name in &settings::names()[..records] {
        assert_eq!(lookup(table, name.as_bytes(), &mut [0; 3]), 0);
    }
}

/// Checks that the table is well formed on both sides, and that both find the same number under each name.
fn check(names: &[String], table: &[u8]) {
    assert!(bindings::table(table) == 0 && oracle::is_well_formed(table));
    for name in names {
        let mut found = [0; 3];
        let refusal = lookup(table, name.as_bytes(), &mut found);
        let other = oracle::lookup(table, name.as_bytes());
        let same = found[0] == kind::NUMBER && other == Some(Setting::Number(found[1]));
        assert!(refusal == 0 && same, "{name}");
    }
}
