//! Bytes of data fields: refusals 1 to 12 and 23 to 26 with their offsets, and
//! every byte.

use oracle::{Edition, EDITIONS};

use crate::crash;
use crate::editions;
use crate::evaluations::{write, TO_A_TABLE};
use crate::gen::settings::{self, Names};
use crate::gen::{fields as gen, nested, tables};
use crate::lent::{Input, Shown};
use crate::library::{self, Field};
use crate::prng::Prng;
use crate::report::{escaped, Mismatch, Tally};
use crate::subject::Subject;

/// More than any field has.
const AMPLE: usize = 2 * oracle::tokens::MAX_BYTES;

/// Values on both sides of each limit, and some refusals.
#[rustfmt::skip]
const EXPRESSIONS: [&str; 28] = [
    "0", "1", "2", "255", "256", "65535", "65536", "4294967295", "4294967296", "1 << 63",
    "18446744073709551615", "''", "'ab'", "L''", "L'ab'", "$(E)", "$(S)", "$(W)", "1 / 0", "1 | 2",
    "", "@", "g.P", "'a' == a", "$(S) NE a", "1 EQ a", "1 ? $(S) : $(S) == a", "a",
];

pub struct Fields;

impl Subject for Fields {
    fn name(&self) -> &'static str {
        "fields"
    }

    fn units(&self) -> (&'static str, &'static str) {
        ("answers", "")
    }

    fn needed(&self) -> &'static [u8] {
        &[1, 2, 3, 4, 5, 6, 7, 8, 9, 10, 11, 12, 23, 24, 25, 26]
    }

    fn lacks(&self, random: &Tally) -> Option<String> {
        editions::lack_in_expressions(random, 3..=12)
    }

    fn fixed(&self, tally: &mut Tally) -> Result<(), Mismatch> {
        for empty in Input::empty_ones() {
            let case = Case {
                expr: b"",
                table: b"",
                datum: 0,
                room: 0,
            };
            case.compare_at(empty, empty, 1, tally)?;
        }
        let settings = [
            tables::record(b"E", 1, b""),
            tables::record(b"S", 1, b"a\0\xff"),
            tables::record(b"W", 2, b"w\0\xff"),
        ]
        .concat();
        for datum in 0..=255 {
            for expr in EXPRESSIONS {
                for room in 0..=12 {
                    let case = Case {
                        expr: expr.as_bytes(),
                        table: &settings,
                        datum,
                        room,
                    };
                    case.compare(room as u64 * 0x1111_1111_1111_1111, tally)?;
                }
            }
        }
        for expr in nested::all() {
            let case = Case {
                expr: &expr,
                table: &settings,
                datum: 5,
                room: 8,
            };
            case.compare(4, tally)?;
        }
        for (start, each) in [("'", 1), ("L'", 2)] {
            for count in [56, 57, 510, 511, 512, 1_020, 1_021, 1_022, 1_023] {
                let expr = format!("{start}{}'", "s".repeat(count));
                let needed = each * (count + 1);
                for room in [needed - 1, needed, needed + 1, AMPLE, 0] {
                    let case = Case {
                        expr: expr.as_bytes(),
                        table: &settings[..127],
                        datum: 0,
                        room,
                    };
                    case.compare(2, tally)?;
                    Case { table: b"", ..case }.compare(3, tally)?;
                }
            }
        }
        let case = Case {
            expr: b"'a' != foo",
            table: b"",
            datum: 1,
            room: 2,
        };
        for pattern in editions::all_patterns() {
            case.compare(pattern, tally)?;
        }
        Ok(())
    }

    fn case(&self, rng: &mut Prng, tally: &mut Tally) -> Result<(), Mismatch> {
        let table = settings::table(rng);
        let edition = rng.pick(&EDITIONS);
        let names = Names::of(&table, edition);
        for _ in 0..TO_A_TABLE {
            let expr = gen::expression(rng, &names);
            let outcome = oracle::evaluate(&expr, &table, edition).ok();
            let datum = gen::datum(rng, outcome.map(|outcome| outcome.value.kind()));
            let field = oracle::field(&expr, &table, datum, edition, &mut [0; AMPLE]);
            let needed = field.unwrap_or(0);
            let case = Case {
                expr: &expr,
                table: &table,
                datum,
                room: gen::room(rng, needed),
            };
            case.compare(rng.next(), tally)?;
        }
        Ok(())
    }
}

/// One call, without the bytes of the buffer before it.
#[derive(Clone, Copy)]
struct Case<'a> {
    expr: &'a [u8],
    table: &'a [u8],
    datum: u8,
    room: usize,
}

impl Case<'_> {
    fn compare(&self, pattern: u64, tally: &mut Tally) -> Result<(), Mismatch> {
        let shown = Shown::new(self.expr, pattern);
        let shown_table = Shown::new(self.table, pattern >> 8);
        self.compare_at(shown.input(), shown_table.input(), pattern, tally)?;
        let checked = shown.check("expression").and(shown_table.check("table"));
        checked.map_err(|what| self.broken_memory(what))
    }

    /// Compares the fields of an expression and a table that the library finds
    /// at these places, in both editions.
    fn compare_at(
        &self,
        expr_at: Input,
        table_at: Input,
        pattern: u64,
        tally: &mut Tally,
    ) -> Result<(), Mismatch> {
        let [new, old] = editions::both(pattern, |edition| {
            self.compare_in(edition, expr_at, table_at, pattern, tally)
        })?;
        editions::count_expression(self.expr, new.refusal, old.refusal, tally);
        if editions::agree(&new, &old, new.refusal, editions::OF_AN_EXPRESSION) {
            return Ok(());
        }
        let (new, old) = (write_field(&new), write_field(&old));
        Err(editions::mismatch("another field", self.write(), new, old))
    }

    /// Compares the field in one edition, and gives the library's.
    fn compare_in(
        &self,
        edition: Edition,
        expr_at: Input,
        table_at: Input,
        pattern: u64,
        tally: &mut Tally,
    ) -> Result<Field, Mismatch> {
        let mut buffer = vec![pattern as u8; self.room];
        let outcome = oracle::field(self.expr, self.table, self.datum, edition, &mut buffer);
        let expected = Field {
            refusal: outcome.err().map_or(0, |refusal| refusal.number),
            length: outcome.map_or(0, |length| length as u64),
            offset: outcome.err().map_or(0, |refusal| refusal.offset() as u64),
            buffer,
        };
        tally.add(expected.refusal, expected.offset);
        let dialect = editions::dialect(edition, pattern);
        let given = crash::watched(self.expr, || {
            library::field(expr_at, table_at, self.datum, dialect, self.room, pattern)
        });
        let given = given.map_err(|what| self.broken_memory(what))?;
        if given == expected {
            return Ok(given);
        }
        let what = if given.refusal != expected.refusal {
            "refusal"
        } else if given.length != expected.length {
            "length"
        } else if given.offset != expected.offset {
            "offset of the refusal"
        } else {
            "bytes of the buffer"
        };
        Err(Mismatch {
            what: what.to_string(),
            input: self.write(),
            oracle: write_field(&expected),
            library: write_field(&given),
        })
    }

    fn broken_memory(&self, what: String) -> Mismatch {
        Mismatch {
            what,
            input: self.write(),
            oracle: "does not write there".to_string(),
            library: "does".to_string(),
        }
    }

    fn write(&self) -> String {
        let (datum, room) = (self.datum, self.room);
        let input = write(self.expr, self.table);
        format!("datum {datum}, a buffer of {room} bytes, {input}")
    }
}

fn write_field(field: &Field) -> String {
    format!(
        "refusal {}, offset {}, length {}, buffer \"{}\"",
        field.refusal,
        field.offset,
        field.length,
        escaped(&field.buffer)
    )
}
