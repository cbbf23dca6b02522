//! Tables: whether they are well formed, and the setting of a name.

use oracle::table::RECORD;
use oracle::Setting;

use crate::crash;
use crate::gen::searches::{self, Search};
use crate::gen::tables as gen;
use crate::lent::{Input, Shown};
use crate::library;
use crate::prng::Prng;
use crate::report::{escaped, Mismatch, Tally};
use crate::subject::Subject;

pub struct Tables;

impl Subject for Tables {
    fn name(&self) -> &'static str {
        "tables"
    }

    fn units(&self) -> (&'static str, &'static str) {
        ("tables", "lookups")
    }

    fn needed(&self) -> &'static [u8] {
        &[1]
    }

    fn fixed(&self, tally: &mut Tally) -> Result<(), Mismatch> {
        let record = gen::record(b"A", 1, b"x");
        let shown_record = Shown::new(&record, 1);
        let shown_name = Shown::new(b"A", 1);
        let (record_at, name_at) = (shown_record.input(), shown_name.input());
        for empty in Input::empty_ones() {
            let table = Case::check(b"", empty, tally)?;
            table.look_up(b"", empty, 1, tally)?;
            table.look_up(b"A", name_at, 2, tally)?;
            let table = Case::check(&record, record_at, tally)?;
            table.look_up(b"", empty, 3, tally)?;
        }
        for table in gen::corners() {
            compare(&table, &[b"A".to_vec(), b"B".to_vec()], 4, tally)?;
        }
        for (search, pattern) in searches::all().zip((0..).step_by(0x103)) {
            compare_search(&search, pattern, tally).map_err(|mut mismatch| {
                mismatch.what += &format!(" ({})", search.what);
                mismatch
            })?;
        }
        Ok(())
    }

    fn case(&self, rng: &mut Prng, tally: &mut Tally) -> Result<(), Mismatch> {
        let table = gen::valid(rng);
        check_oracle_takes(&table)?;
        let names = gen::lookups(rng, &table);
        compare(&table, &names, rng.next(), tally)?;
        for (damage, damaged) in gen::damaged(rng, &table) {
            // Mostly names that the table had, so that something is found.
            let names = [rng.below(3), rng.below(names.len())].map(|index| names[index].clone());
            compare(&damaged, &names, rng.next(), tally).map_err(|mut mismatch| {
                mismatch.what += &format!(" (damage: {damage})");
                mismatch
            })?;
        }
        Ok(())
    }
}

fn check_oracle_takes(table: &[u8]) -> Result<(), Mismatch> {
    if oracle::is_well_formed(table) {
        return Ok(());
    }
    Err(Mismatch {
        what: "the oracle refuses a table that was made well formed".to_string(),
        input: write_table(table),
        oracle: "1".to_string(),
        library: "not called".to_string(),
    })
}

/// The oracle searches by halving too, so it is compared with the list of names first.
fn check_oracle_finds(search: &Search, name: &[u8]) -> Result<(), Mismatch> {
    let index = search.names.iter().position(|known| known == name);
    let expected = index.map_or(numbers(None), |index| search.settings[index]);
    let given = numbers(oracle::lookup(&search.table, name));
    if given == expected {
        return Ok(());
    }
    Err(Mismatch {
        what: format!("the oracle does not give the setting that was made, {expected:?}"),
        input: write_lookup(&search.table, name),
        oracle: format!("{given:?}"),
        library: "not called".to_string(),
    })
}

/// Compares the lookups of all names of a table and of their neighbours.
fn compare_search(search: &Search, pattern: u64, tally: &mut Tally) -> Result<(), Mismatch> {
    check_oracle_takes(&search.table)?;
    let names = search.lookups();
    for name in &names {
        check_oracle_finds(search, name)?;
    }
    compare(&search.table, &names, pattern, tally)
}

/// Compares the check of a table and some lookups in it.
fn compare(
    table: &[u8],
    names: &[Vec<u8>],
    pattern: u64,
    tally: &mut Tally,
) -> Result<(), Mismatch> {
    let shown = Shown::new(table, pattern);
    let case = Case::check(table, shown.input(), tally)?;
    for name in names {
        let shown_name = Shown::new(name, pattern >> 8);
        case.look_up(name, shown_name.input(), pattern, tally)?;
        shown_name
            .check("name")
            .map_err(|what| case.broken_memory(what, name))?;
    }
    shown
        .check("table")
        .map_err(|what| case.broken_memory(what, b""))
}

/// A table that both find well formed, or both malformed.
struct Case<'a> {
    table: &'a [u8],
    at: Input<'a>,
    well_formed: bool,
}

impl<'a> Case<'a> {
    /// Compares the check of `table`, which the library finds at `at`.
    fn check(table: &'a [u8], at: Input<'a>, tally: &mut Tally) -> Result<Case<'a>, Mismatch> {
        let well_formed = oracle::is_well_formed(table);
        let expected = u8::from(!well_formed);
        tally.add(expected, 0);
        let given = crash::watched(table, || library::table(at));
        if given == expected {
            return Ok(Case {
                table,
                at,
                well_formed,
            });
        }
        Err(Mismatch {
            what: "check of the table".to_string(),
            input: write_table(table),
            oracle: expected.to_string(),
            library: given.to_string(),
        })
    }

    fn look_up(
        &self,
        name: &[u8],
        name_at: Input,
        pattern: u64,
        tally: &mut Tally,
    ) -> Result<(), Mismatch> {
        tally.extra += 1;
        let given = crash::watched(self.table, || library::lookup(self.at, name_at, pattern));
        let given = given.map_err(|what| self.broken_memory(what, name))?;
        let expected = if self.well_formed {
            (0, numbers(oracle::lookup(self.table, name)))
        } else {
            (1, [pattern; 3])
        };
        if given == expected {
            return Ok(());
        }
        Err(Mismatch {
            what: "lookup".to_string(),
            input: self.write(name),
            oracle: format!("{expected:?}"),
            library: format!("{given:?}"),
        })
    }

    fn broken_memory(&self, what: String, name: &[u8]) -> Mismatch {
        Mismatch {
            what,
            input: self.write(name),
            oracle: "does not write there".to_string(),
            library: "does".to_string(),
        }
    }

    fn write(&self, name: &[u8]) -> String {
        write_lookup(self.table, name)
    }
}

/// A setting in the form that the library answers in.
fn numbers(setting: Option<Setting>) -> [u64; 3] {
    match setting {
        Some(Setting::Number(number)) => [0, number, 0],
        Some(Setting::Text { start, len }) => [1, start as u64, len as u64],
        Some(Setting::Wide { start, len }) => [2, start as u64, len as u64],
        None => [255, 0, 0],
    }
}

fn write_lookup(table: &[u8], name: &[u8]) -> String {
    format!("name \"{}\" in {}", escaped(name), write_table(table))
}

pub fn write_table(table: &[u8]) -> String {
    let mut out = format!("a table of {} bytes", table.len());
    for (index, record) in table.chunks(RECORD).enumerate() {
        out += &format!("\n    record {index}: \"{}\"", escaped(record));
    }
    out
}
