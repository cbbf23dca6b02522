//! Values of expressions: refusals 1 to 12 with their offsets, and value, count
//! and place.

use std::ops::Range;

use oracle::{Edition, Value, EDITIONS};

use crate::crash;
use crate::editions;
use crate::gen::formulas::Place;
use crate::gen::settings::{self, Names};
use crate::gen::{bare_words, expressions, nested, rivals, tables, values};
use crate::lent::{Input, Shown};
use crate::library;
use crate::prng::Prng;
use crate::report::{escaped, Mismatch, Tally};
use crate::subject::Subject;
use crate::tables::write_table;

/// Expressions to a table, so that tables take less of the time.
pub const TO_A_TABLE: usize = 4;

pub struct Evaluations;

impl Subject for Evaluations {
    fn name(&self) -> &'static str {
        "evaluations"
    }

    fn units(&self) -> (&'static str, &'static str) {
        ("answers", "places of strings")
    }

    fn needed(&self) -> &'static [u8] {
        &[1, 2, 3, 4, 5, 6, 7, 8, 9, 10, 11, 12]
    }

    fn lacks(&self, random: &Tally) -> Option<String> {
        editions::lack_in_expressions(random, 3..=12)
    }

    fn fixed(&self, tally: &mut Tally) -> Result<(), Mismatch> {
        let record = tables::record(b"A", 1, b"x");
        let shown_record = Shown::new(&record, 1);
        let shown_name = Shown::new(b"$(A)", 1);
        let (record_at, name_at) = (shown_record.input(), shown_name.input());
        for empty in Input::empty_ones() {
            for other in Input::empty_ones() {
                compare_at(b"", empty, b"", other, 1, tally)?;
            }
            compare_at(b"", empty, &record, record_at, 2, tally)?;
            compare_at(b"$(A)", name_at, b"", empty, 3, tally)?;
        }
        for expr in expressions::corners() {
            for (table, pattern) in [(&b""[..], 4), (&record, 5), (&record[1..], 6)] {
                compare(&expr, table, pattern, tally)?;
            }
        }
        for (index, table) in tables::corners().iter().enumerate().step_by(101) {
            compare(b"$(A)", table, index as u64, tally)?;
        }
        let strings = [
            tables::record(b"E", 1, b""),
            tables::record(b"F", 2, b""),
            tables::record(b"S", 1, b"ab"),
            tables::record(b"W", 2, b"ab"),
        ];
        for (index, expr) in values::choices().iter().enumerate() {
            compare(expr, &strings.concat(), index as u64, tally)?;
        }
        let lists = [
            values::short_lists(),
            values::edges(),
            values::neighbours(),
            nested::all(),
        ];
        for (index, expr) in lists.concat().iter().enumerate() {
            compare(expr, b"", index as u64, tally)?;
        }
        let one_pcd = tables::record(b"g.P", 0, &[2, 0, 0, 0, 0, 0, 0, 0]);
        for (index, expr) in rivals::pairs().iter().enumerate() {
            compare(expr, &one_pcd, index as u64, tally)?;
        }
        for (index, expr) in bare_words::all().iter().enumerate() {
            compare(expr, &strings.concat(), index as u64, tally)?;
        }
        for pattern in editions::all_patterns() {
            compare(b"'ab' == ab", b"", pattern, tally)?;
        }
        Ok(())
    }

    fn case(&self, rng: &mut Prng, tally: &mut Tally) -> Result<(), Mismatch> {
        let table = settings::table(rng);
        let names = Names::of(&table, rng.pick(&EDITIONS));
        for _ in 0..TO_A_TABLE {
            let expr = values::any(rng, &names, Place::Alone);
            compare(&expr, &table, rng.next(), tally)?;
        }
        Ok(())
    }
}

fn compare(expr: &[u8], table: &[u8], pattern: u64, tally: &mut Tally) -> Result<(), Mismatch> {
    let shown = Shown::new(expr, pattern);
    let shown_table = Shown::new(table, pattern >> 8);
    compare_at(
        expr,
        shown.input(),
        table,
        shown_table.input(),
        pattern,
        tally,
    )?;
    let checked = shown.check("expression").and(shown_table.check("table"));
    checked.map_err(|what| Mismatch {
        what,
        input: write(expr, table),
        oracle: "does not write there".to_string(),
        library: "does".to_string(),
    })
}

/// Compares the values of `expr` under `table`, which the library finds at
/// `expr_at` and `table_at`, in both editions.
fn compare_at(
    expr: &[u8],
    expr_at: Input,
    table: &[u8],
    table_at: Input,
    pattern: u64,
    tally: &mut Tally,
) -> Result<(), Mismatch> {
    let [new, old] = editions::both(pattern, |edition| {
        compare_in(edition, expr, expr_at, table, table_at, pattern, tally)
    })?;
    editions::count_expression(expr, new.0, old.0, tally);
    if editions::agree(&new, &old, new.0, editions::OF_AN_EXPRESSION) {
        return Ok(());
    }
    let (new, old) = (format!("{new:?}"), format!("{old:?}"));
    let input = write(expr, table);
    Err(editions::mismatch("another answer", input, new, old))
}

/// Compares the value in one edition, and gives the library's.
fn compare_in(
    edition: Edition,
    expr: &[u8],
    expr_at: Input,
    table: &[u8],
    table_at: Input,
    pattern: u64,
    tally: &mut Tally,
) -> Result<(u8, [u64; 7]), Mismatch> {
    let expected = answer(expr, table, edition);
    tally.add(expected.0, expected.1[6]);
    if expected.1[0] != 0 {
        tally.extra += 1;
    }
    let dialect = editions::dialect(edition, pattern);
    let given = crash::watched(expr, || {
        library::evaluate(expr_at, table_at, dialect, pattern)
    });
    if given.as_ref() == Ok(&expected) {
        return Ok(expected);
    }
    let (what, library) = match given {
        Ok(given) => (
            difference(expected, given).to_string(),
            format!("{given:?}"),
        ),
        Err(what) => (what, "does".to_string()),
    };
    Err(Mismatch {
        what,
        input: write(expr, table),
        oracle: format!("{expected:?}"),
        library,
    })
}

/// The oracle's answer in the library's form.
fn answer(expr: &[u8], table: &[u8], edition: Edition) -> (u8, [u64; 7]) {
    let outcome = match oracle::evaluate(expr, table, edition) {
        Ok(outcome) => outcome,
        Err(refusal) => {
            let offset = refusal.offset() as u64;
            return (refusal.number, [0, 0, 0, 0, 0, 0, offset]);
        }
    };
    let string = |kind, bytes: &[u8]| {
        let (memory, start) = place(expr, table, bytes);
        let len = bytes.len() as u64;
        [kind, 0, outcome.count, memory, start, len, 0]
    };
    let numbers = match outcome.value {
        Value::Number(number) => [0, number, outcome.count, 0, 0, 0, 0],
        Value::Text(bytes) => string(1, bytes),
        Value::Wide(bytes) => string(2, bytes),
    };
    (0, numbers)
}

/// Which memory a part lies in, and where. An empty part has its place too:
/// it is never at the very end of its memory, so this finds it.
fn place(expr: &[u8], table: &[u8], part: &[u8]) -> (u64, u64) {
    let range = |bytes: &[u8]| -> Range<usize> {
        let range = bytes.as_ptr_range();
        range.start as usize..range.end as usize
    };
    let at = part.as_ptr() as usize;
    for (memory, bytes) in [(0, range(expr)), (1, range(table))] {
        if bytes.contains(&at) {
            return (memory, (at - bytes.start) as u64);
        }
    }
    unreachable!("the oracle's strings are parts of its inputs")
}

fn difference(expected: (u8, [u64; 7]), given: (u8, [u64; 7])) -> &'static str {
    if expected.0 != given.0 {
        return "refusal";
    }
    let names = [
        "kind",
        "number",
        "count of operators",
        "memory of the string",
        "start of the string",
        "length of the string",
        "offset of the refusal",
    ];
    let place = (0..7).find(|&place| expected.1[place] != given.1[place]);
    place.map_or("nothing", |place| names[place])
}

pub fn write(expr: &[u8], table: &[u8]) -> String {
    format!("\"{}\" under {}", escaped(expr), write_table(table))
}
