//! Tables of chosen sizes, and names to look up in them: those of the records, and their neighbours.

use oracle::table::{CONTENT, RECORD};

use super::families::{self, Family};
use super::neighbours;
use super::tables::record;

/// Sizes at which every name is looked up with all its neighbours.
pub const SMALL: [usize; 12] = [0, 1, 2, 3, 4, 5, 7, 8, 9, 15, 16, 17];

/// Sizes at which most names are looked up with their closest neighbours only.
pub const LARGE: [usize; 5] = [255, 256, 257, 511, 512];

/// A well formed table, with the names and the settings in it.
pub struct Search {
    pub what: String,
    pub table: Vec<u8>,
    pub names: Vec<Vec<u8>>,
    /// In the form that the library answers in, all of them different.
    pub settings: Vec<[u64; 3]>,
    third: Option<usize>,
}

/// Every family at every size for which it has names.
pub fn all() -> impl Iterator<Item = Search> {
    let families = families::all().into_iter().enumerate();
    families.flat_map(|(turn, family)| {
        let sizes = SMALL.iter().chain(&LARGE);
        let searches = sizes.flat_map(|&size| searches(&family, size, turn));
        searches.collect::<Vec<Search>>()
    })
}

/// With names from all parts of the family; if they are few, also with its
/// first and with its last names.
fn searches(family: &Family, size: usize, turn: usize) -> Vec<Search> {
    let Some(rest) = family.names.len().checked_sub(size) else {
        return Vec::new();
    };
    let search = |which, names| Search::new(family, which, names, turn);
    let mut searches = vec![search("spread out", family.spread(size))];
    if SMALL.contains(&size) {
        searches.push(search("the first", family.names[..size].to_vec()));
        searches.push(search("the last", family.names[rest..].to_vec()));
    }
    searches
}

/// Kind, number or start, and length of the setting in this record. `turn`
/// changes the kinds, so that each place has each kind in some table.
fn setting(index: usize, size: usize, turn: usize) -> [u64; 3] {
    let number = (index as u64 + 1).wrapping_mul(0x0102_0408_1020_4081);
    let start = (index * RECORD + CONTENT) as u64;
    // The last one is full: it ends where the table ends.
    let len = 56 - (size - 1 - index) as u64 % 57;
    match (index + turn) % 4 {
        1 => [1, start, len],
        2 => [2, start, len],
        _ => [0, number, 0],
    }
}

fn record_with(name: &[u8], setting: [u64; 3]) -> [u8; RECORD] {
    match setting {
        [0, number, _] => record(name, 0, &number.to_le_bytes()),
        [kind, _, len] => record(name, kind as u8, &b"x".repeat(len as usize)),
    }
}

impl Search {
    fn new(family: &Family, which: &str, names: Vec<Vec<u8>>, turn: usize) -> Search {
        let size = names.len();
        let settings: Vec<[u64; 3]> = (0..size).map(|index| setting(index, size, turn)).collect();
        let records = names.iter().zip(&settings);
        Search {
            what: format!("names {}: {size}, {which}", family.what),
            table: records
                .flat_map(|(name, setting)| record_with(name, *setting))
                .collect(),
            names,
            settings,
            third: family.third,
        }
    }

    /// The names of the records with their neighbours, and names that are apart from all.
    pub fn lookups(&self) -> Vec<Vec<u8>> {
        let mut all = neighbours::of_any_table();
        let size = self.names.len();
        let is_small = SMALL.contains(&size);
        for (index, name) in self.names.iter().enumerate() {
            let is_middle = index == size / 2;
            let has_all = is_small || is_middle || index == 0 || index == size - 1;
            if has_all || self.third.is_none_or(|third| index % 3 == third) {
                all.push(name.clone());
                all.extend(neighbours::closest(name));
            }
            if has_all {
                all.extend(neighbours::near(name));
                all.extend(neighbours::with_zeros(name));
                all.extend(neighbours::prolonged(name));
            }
            if is_middle {
                all.extend(neighbours::very_long(name));
            }
            if is_middle && is_small {
                all.extend(neighbours::changed(name));
            }
        }
        all
    }
}
