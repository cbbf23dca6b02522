//! Marks of description files: refusals 1, 3 to 22, 27 and 28 with their lines
//! and offsets, and every byte.

use oracle::{Edition, EDITIONS};

use crate::bars;
use crate::crash;
use crate::definitions;
use crate::editions;
use crate::gen::settings::{self, Names};
use crate::gen::{
    bare_words, files, many_definitions, nested, refused_definitions, refused_lines, rivals,
    short_files, tables, values,
};
use crate::lent::{Input, Shown};
use crate::library::{self, Selected};
use crate::prng::Prng;
use crate::report::{escaped, Mismatch, Tally};
use crate::subject::Subject;
use crate::tables::write_table;

/// Files to a table, so that tables take less of the time.
const TO_A_TABLE: usize = 3;

pub struct Selections;

impl Subject for Selections {
    fn name(&self) -> &'static str {
        "selections"
    }

    fn units(&self) -> (&'static str, &'static str) {
        ("answers", "lines")
    }

    fn needed(&self) -> &'static [u8] {
        &[
            1, 3, 4, 5, 6, 7, 8, 9, 10, 11, 12, 13, 14, 15, 16, 17, 18, 19, 20, 21, 22, 27, 28,
        ]
    }

    fn excess(&self, met: &Tally) -> Option<String> {
        bars::excess(met)
    }

    fn lacks(&self, random: &Tally) -> Option<String> {
        bars::lack(random)
            .or_else(|| editions::lack_in_files(random))
            .or_else(|| definitions::lack_in_accepted(random))
            .or_else(|| definitions::lack_in_refused(random))
    }

    fn fixed(&self, tally: &mut Tally) -> Result<(), Mismatch> {
        without_bytes(tally)?;
        let record = tables::record(b"A", 0, &[0; 8]);
        for file in short_files::all() {
            let lines = line_count(&file);
            for (table, room) in [(&b""[..], lines + 2), (&record, lines)] {
                let case = Case {
                    file: &file,
                    table,
                    room,
                };
                case.compare(0x77, tally)?;
            }
        }
        for file in [refused_lines::all(), refused_definitions::all()].concat() {
            let case = Case {
                file: &file,
                table: &record,
                room: line_count(&file),
            };
            case.compare(0x78, tally)?;
        }
        short_expressions(tally)?;
        refused_expressions(tally)?;
        bare_words(tally)?;
        long_names(tally)?;
        many_definitions(tally)?;
        for room in 0..6 {
            for (index, file) in [&b""[..], b"\n", b"a\nb", b"!if 1\n!endif\n\n", b"!"]
                .into_iter()
                .enumerate()
            {
                for table in [&b""[..], &record, &record[1..]] {
                    Case { file, table, room }.compare(index as u64, tally)?;
                }
            }
        }
        for file in [&b"!ifdef $(A)\n!endif"[..], b"!if 'a' == a\n!endif"] {
            let case = Case {
                file,
                table: &record,
                room: 3,
            };
            for pattern in editions::all_patterns() {
                case.compare(pattern, tally)?;
            }
        }
        Ok(())
    }

    fn case(&self, rng: &mut Prng, tally: &mut Tally) -> Result<(), Mismatch> {
        let table = settings::table(rng);
        let names = Names::of(&table, rng.pick(&EDITIONS));
        for _ in 0..TO_A_TABLE {
            let file = files::any(rng, &names, &table);
            let case = Case {
                file: &file,
                table: &table,
                room: room(rng, line_count(&file)),
            };
            case.compare(rng.next(), tally)?;
        }
        Ok(())
    }
}

/// Files, tables and marks of no bytes, at any address.
fn without_bytes(tally: &mut Tally) -> Result<(), Mismatch> {
    let shown = Shown::new(b"x", 1);
    let one_line = shown.input();
    for nowhere in Input::empty_ones() {
        for empty in Input::empty_ones() {
            for (file, at) in [(&b""[..], empty), (b"x", one_line)] {
                let case = Case {
                    file,
                    table: b"",
                    room: 0,
                };
                for (dialect, edition) in [(0, Edition::New), (1, Edition::Old)] {
                    let given = crash::watched(file, || {
                        library::select_without_marks(nowhere.start(), at, empty, dialect, 3)
                    });
                    case.check(edition, given, 3, tally)?;
                    let wide = Case { room: 2, ..case };
                    let given = crash::watched(file, || library::select(at, empty, dialect, 2, 4));
                    wide.check(edition, given, 4, tally)?;
                }
            }
        }
    }
    Ok(())
}

/// Expressions with several reasons to be refused, of an `!if`, an `!elseif` and
/// a DEFINE line.
fn refused_expressions(tally: &mut Tally) -> Result<(), Mismatch> {
    let one_pcd = tables::record(b"g.P", 0, &[2, 0, 0, 0, 0, 0, 0, 0]);
    for expr in [nested::all(), rivals::pairs()].concat() {
        for (front, back, room) in [
            (&b"\t!if "[..], &b"\r\n!endif"[..], 2),
            (b"!if 0\r\n!elseif\t", b"\r\n!endif", 3),
            (b" DEFINE A =", b"\r\n!ifdef A\n!endif", 3),
        ] {
            let file = [front, &expr, back].concat();
            let case = Case {
                file: &file,
                table: &one_pcd,
                room,
            };
            case.compare(8, tally)?;
        }
    }
    Ok(())
}

/// Conditions and DEFINE lines with bare words, and with what is nearly one.
fn bare_words(tally: &mut Tally) -> Result<(), Mismatch> {
    let string = tables::record(b"S", 1, b"ab");
    for expr in bare_words::all() {
        for (front, back, room) in [
            (&b"!if\t"[..], &b"\n!endif\n"[..], 2),
            (b"DEFINE S = ", b"\n", 1),
        ] {
            let file = [front, &expr[..], back].concat();
            let case = Case {
                file: &file,
                table: &string,
                room,
            };
            case.compare(9, tally)?;
        }
    }
    Ok(())
}

/// Every condition and every DEFINE line of up to four tokens, bars outside
/// parentheses among them.
fn short_expressions(tally: &mut Tally) -> Result<(), Mismatch> {
    for list in values::token_lists() {
        for (front, back, room) in [("!if", "\n!endif", 2), ("DEFINE A =", "\n", 1)] {
            let file = format!("{front}{list}{back}");
            let case = Case {
                file: file.as_bytes(),
                table: b"",
                room,
            };
            case.compare(6, tally)?;
        }
    }
    Ok(())
}

/// About as many macros as DEFINE lines may set; the table has another one.
fn many_definitions(tally: &mut Tally) -> Result<(), Mismatch> {
    let table = tables::record(b"A", 0, &[0; 8]);
    for file in many_definitions::all() {
        let file = file.as_bytes();
        let case = Case {
            file,
            table: &table,
            room: line_count(file),
        };
        case.compare(10, tally)?;
    }
    Ok(())
}

/// Names of about 64 bytes, as many as a record has for one.
fn long_names(tally: &mut Tally) -> Result<(), Mismatch> {
    for set in 62..=64 {
        let table = tables::record(&b"X".repeat(set), 0, &[0; 8]);
        for asked in 61..=67 {
            let name = "X".repeat(asked);
            let asks = format!(
                "!ifdef {name}\na\n!endif\n!ifndef $({name})\nb\n!endif\n!if $({name}) == 0\n!endif"
            );
            let defined = (61..=65).map(|len| format!("DEFINE {} = {len}\n", "X".repeat(len)));
            for front in defined.chain([String::new()]) {
                let file = format!("{front}{asks}");
                let case = Case {
                    file: file.as_bytes(),
                    table: &table,
                    room: 9,
                };
                case.compare(5, tally)?;
            }
        }
    }
    Ok(())
}

/// How many lines a file has.
fn line_count(file: &[u8]) -> usize {
    oracle::lines::lines(file).count()
}

/// How many marks are lent, about as many as there are lines.
fn room(rng: &mut Prng, lines: usize) -> usize {
    match rng.below(24) {
        0 => lines.saturating_sub(1),
        1 => rng.below(lines + 1),
        2 => lines + 4_096,
        3..=12 => lines,
        _ => lines + rng.below(20),
    }
}

/// One call, without the bytes of the marks before it.
#[derive(Clone, Copy)]
pub struct Case<'a> {
    pub file: &'a [u8],
    pub table: &'a [u8],
    pub room: usize,
}

impl Case<'_> {
    /// Compares the selections in both editions.
    fn compare(&self, pattern: u64, tally: &mut Tally) -> Result<(), Mismatch> {
        let [new, old] = editions::both(pattern, |edition| {
            let given = self.call(edition, pattern);
            self.check(edition, given, pattern, tally)
        })?;
        editions::count_file(self.file, &old.marks, tally);
        if editions::agree(&new, &old, new.refusal, editions::OF_A_FILE) {
            return Ok(());
        }
        let (new, old) = (write_selected(&new), write_selected(&old));
        Err(editions::mismatch(
            "another selection",
            self.write(),
            new,
            old,
        ))
    }

    /// Calls the library, and checks that it only reads the file and the table.
    pub fn call(&self, edition: Edition, pattern: u64) -> Result<Selected, String> {
        let shown = Shown::new(self.file, pattern);
        let shown_table = Shown::new(self.table, pattern >> 8);
        let given = crash::watched(self.file, || {
            let dialect = editions::dialect(edition, pattern);
            library::select(
                shown.input(),
                shown_table.input(),
                dialect,
                self.room,
                pattern,
            )
        })?;
        shown.check("file").and(shown_table.check("table"))?;
        Ok(given)
    }

    /// Compares what the library gave with what the oracle gives.
    fn check(
        &self,
        edition: Edition,
        given: Result<Selected, String>,
        pattern: u64,
        tally: &mut Tally,
    ) -> Result<Selected, Mismatch> {
        let expected = self.expected(edition, pattern);
        tally.add(expected.refusal, expected.offset);
        tally.extra += expected.lines;
        tally.with_bars += u64::from(bars::in_read_condition(self.file, &expected.marks, edition));
        match expected.refusal {
            0 => {
                let marks = &expected.marks[..expected.lines as usize];
                definitions::count_accepted(self.file, self.table, edition, marks, tally);
            }
            number => definitions::count_refusal(self.file, number, expected.line, tally),
        }
        let given = given.map_err(|what| self.broken_memory(what))?;
        match difference(&expected, &given) {
            None => Ok(given),
            Some(what) => Err(Mismatch {
                what,
                input: self.write(),
                oracle: write_selected(&expected),
                library: write_selected(&given),
            }),
        }
    }

    /// The oracle's answer in the library's form.
    fn expected(&self, edition: Edition, pattern: u64) -> Selected {
        let mut marks = vec![pattern as u8; self.room];
        let outcome = oracle::select(self.file, self.table, edition, &mut marks);
        let (lines, count) = outcome.unwrap_or((0, 0));
        let (refusal, line, offset) = outcome.err().map_or((0, 0, 0), |(refusal, line)| {
            (refusal.number, line, refusal.offset())
        });
        Selected {
            refusal,
            line: line as u64,
            offset: offset as u64,
            lines: lines as u64,
            count,
            marks,
        }
    }

    pub fn broken_memory(&self, what: String) -> Mismatch {
        Mismatch {
            what,
            input: self.write(),
            oracle: "does not write there".to_string(),
            library: "does".to_string(),
        }
    }

    pub fn write(&self) -> String {
        let mut out = format!("{} bytes of marks, {}", self.room, write_table(self.table));
        out += "\n    under which the file:";
        let pieces = self.file.split_inclusive(|&byte| byte == b'\n');
        for (index, piece) in pieces.enumerate() {
            out += &format!("\n    {:>5} \"{}\"", index + 1, escaped(piece));
        }
        out
    }
}

fn difference(expected: &Selected, given: &Selected) -> Option<String> {
    let numbers = |selected: &Selected| {
        [
            u64::from(selected.refusal),
            selected.line,
            selected.lines,
            selected.count,
            selected.offset,
        ]
    };
    let names = [
        "refusal",
        "line of the refusal",
        "number of lines",
        "count of operators",
        "offset of the refusal",
    ];
    let (expected_numbers, given_numbers) = (numbers(expected), numbers(given));
    if let Some(place) = (0..5).find(|&place| expected_numbers[place] != given_numbers[place]) {
        return Some(names[place].to_string());
    }
    let place =
        (0..expected.marks.len()).find(|&place| expected.marks[place] != given.marks[place]);
    place.map(|place| match place as u64 {
        line if line < expected.lines => format!("mark of line {}", line + 1),
        _ => format!("byte {place} of the marks"),
    })
}

pub fn write_selected(selected: &Selected) -> String {
    let mut out = format!(
        "refusal {}, line {}, offset {}, {} lines, count {}, marks",
        selected.refusal, selected.line, selected.offset, selected.lines, selected.count
    );
    for run in selected.marks.chunk_by(|one, other| one == other) {
        out += &match run.len() {
            1 => format!(" {}", run[0]),
            times => format!(" {}x{times}", run[0]),
        };
    }
    out
}
