//! Demand 3: what an accepted run does not read makes no difference. Pairs of
//! files and tables that agree in what is read must get the same answer from
//! the library, in either edition; both runs of a pair are in the same one. A
//! DEFINE line that is kept counts as read (document 02, order 6), and no other
//! kept line becomes one. Changes of what is read must show.

use oracle::{Edition, EDITIONS};

use crate::bars;
use crate::definitions;
use crate::editions;
use crate::gen::settings::{self, Names};
use crate::gen::{disturbed, files, short_files, tables, twins};
use crate::library::Selected;
use crate::prng::Prng;
use crate::report::{Mismatch, Tally};
use crate::selections::{write_selected, Case};
use crate::subject::Subject;

/// Files to try until one is accepted.
const TRIES: usize = 50;

/// As many marks as any file needs.
const ROOM: usize = oracle::selection::MAX_LINES;

pub struct Isolation;

impl Subject for Isolation {
    fn name(&self) -> &'static str {
        "isolation"
    }

    fn units(&self) -> (&'static str, &'static str) {
        ("first files", "changes of what is read that showed")
    }

    fn needed(&self) -> &'static [u8] {
        &[]
    }

    fn excess(&self, met: &Tally) -> Option<String> {
        bars::excess(met)
    }

    /// Without this a library that always gives the same answer would pass.
    fn lacks(&self, random: &Tally) -> Option<String> {
        let (pairs, showed) = (random.met(0), random.extra);
        (showed < pairs / 2)
            .then(|| format!("of {pairs} accepted files, changes showed {showed} times only"))
            .or_else(|| bars::lack(random))
            .or_else(|| editions::lack_in_files(random))
            .or_else(|| definitions::lack_in_accepted(random))
    }

    fn fixed(&self, tally: &mut Tally) -> Result<(), Mismatch> {
        let record = tables::record(b"A", 0, &[0; 8]);
        for (index, file) in short_files::all().iter().enumerate() {
            let mut rng = Prng::for_case(1, "short files", index as u64);
            for edition in EDITIONS {
                pair(&mut rng, file, &record, edition, tally)?;
            }
        }
        Ok(())
    }

    fn case(&self, rng: &mut Prng, tally: &mut Tally) -> Result<(), Mismatch> {
        for _ in 0..TRIES {
            let table = settings::table(rng);
            let edition = rng.pick(&EDITIONS);
            let file = files::good(rng, &Names::of(&table, edition));
            if pair(rng, &file, &table, edition, tally)? {
                return Ok(());
            }
        }
        Err(Mismatch {
            what: format!("none of {TRIES} files was accepted"),
            input: "files most of which are made to be accepted".to_string(),
            oracle: "not called".to_string(),
            library: "refuses them all".to_string(),
        })
    }
}

/// Compares the first file, if it is accepted, with a second one.
fn pair(
    rng: &mut Prng,
    file: &[u8],
    table: &[u8],
    edition: Edition,
    tally: &mut Tally,
) -> Result<bool, Mismatch> {
    let first = Case {
        file,
        table,
        room: ROOM,
    };
    let answer = call(&first, edition, rng.next())?;
    tally.add(answer.refusal, answer.offset);
    if answer.refusal != 0 {
        definitions::count_refusal(file, answer.refusal, answer.line, tally);
        return Ok(false);
    }
    // Which directives are read is decided by the oracle, not by the library under test.
    let Some(marks) = twins::marks(file, table, edition) else {
        return Err(Mismatch {
            what: format!("a file that is to be refused ({edition:?})"),
            input: first.write(),
            oracle: "refuses it".to_string(),
            library: write_selected(&answer),
        });
    };
    tally.with_bars += u64::from(bars::in_read_condition(file, &marks, edition));
    definitions::count_accepted(file, table, edition, &marks, tally);
    if edition == Edition::Old {
        editions::count_file(file, &marks, tally);
    }
    let named = twins::named(file, &marks, edition);
    let second_file = twins::file(rng, file, &marks);
    let second_table = twins::table(rng, table, &named);
    let second = Case {
        file: &second_file,
        table: &second_table,
        room: rng.between(marks.len(), ROOM),
    };
    let other = call(&second, edition, rng.next())?;
    if other != answer {
        return Err(Mismatch {
            what: format!(
                "another answer to a file and a table that agree in what is read ({edition:?})"
            ),
            input: format!(
                "{}\n    and the second:\n    {}",
                first.write(),
                second.write()
            ),
            oracle: format!("the first answer: {}", write_selected(&answer)),
            library: format!("the second answer: {}", write_selected(&other)),
        });
    }
    disturb(rng, &first, edition, &marks, &answer, tally)?;
    Ok(true)
}

/// A change of a read directive has to show; one of a named record may.
fn disturb(
    rng: &mut Prng,
    first: &Case,
    edition: Edition,
    marks: &[u8],
    answer: &Selected,
    tally: &mut Tally,
) -> Result<(), Mismatch> {
    if let Some(file) = disturbed::file(rng, first.file, marks, edition) {
        let case = Case {
            file: &file,
            ..*first
        };
        let other = call(&case, edition, rng.next())?;
        if other == *answer {
            return Err(Mismatch {
                what: format!("the same answer where a read directive is another ({edition:?})"),
                input: format!(
                    "{}\n    and the second:\n    {}",
                    first.write(),
                    case.write()
                ),
                oracle: "another answer".to_string(),
                library: write_selected(&other),
            });
        }
        tally.extra += 1;
    }
    let named = twins::named(first.file, marks, edition);
    if let Some(table) = disturbed::table(rng, first.table, &named) {
        let case = Case {
            table: &table,
            ..*first
        };
        let other = call(&case, edition, rng.next())?;
        tally.extra += u64::from(other != *answer);
    }
    Ok(())
}

/// The library's answer, with the marks of the lines alone.
fn call(case: &Case, edition: Edition, pattern: u64) -> Result<Selected, Mismatch> {
    let mut answer = case
        .call(edition, pattern)
        .map_err(|what| case.broken_memory(what))?;
    answer.marks.truncate(answer.lines as usize);
    Ok(answer)
}
