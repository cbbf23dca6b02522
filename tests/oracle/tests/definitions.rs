//! DEFINE lines on random files (document 02, order 6), told from calls that
//! know of none: each DEFINE that is obeyed gets a name of its own, which the
//! table then holds, and later lines use that name in place of the macro's.

mod common;

use std::collections::BTreeMap;

use common::*;
use oracle::{evaluate, Edition, Value, EDITIONS};

/// The macros. Each has two digits, and is renamed by changing them, so that no
/// offset moves.
const NAMES: [&str; 4] = ["A00", "B00", "S00", "W00"];

fn any_operand(rng: &mut Prng) -> &'static str {
    rng.pick(&[
        "0", "1", "2", "'a'", "'b'", "L'a'", "$(A00)", "$(A00)", "$(B00)", "$(B00)", "$(S00)",
        "$(W00)", "g.P", "g.N",
    ])
}

fn any_expression(rng: &mut Prng) -> String {
    let (left, right) = (any_operand(rng), any_operand(rng));
    let operator = rng.pick(&["==", "!=", "<", "AND", "OR", "+", "-", "/", "|"]);
    match rng.below(8) {
        0..=3 => left.to_string(),
        4 => format!("({left} {operator} {right})"),
        5 => format!("1 ? {left} : {left} # {right}"),
        6 => format!(
            "{} == {}",
            rng.pick(&["$(S00)", "'a'"]),
            rng.pick(&["a", "b"])
        ),
        _ => format!("{left} {operator} {right}"),
    }
}

fn any_condition(rng: &mut Prng) -> String {
    match rng.below(4) {
        0 => rng.pick(&["0", "1", "$(A00)", "$(B00)"]).to_string(),
        1 => any_expression(rng),
        _ => {
            let name = rng.pick(&["$(A00)", "$(B00)"]);
            format!(
                "{name} {} {}",
                rng.pick(&["==", "!=", "<", "||"]),
                rng.below(3)
            )
        }
    }
}

/// Lines with properly nested groups. A kind mostly stays with its name.
fn any_lines(rng: &mut Prng, depth: usize, out: &mut Vec<String>) {
    for _ in 0..1 + rng.below(4) {
        match rng.below(6) {
            0 => out.push("x $(A00)".to_string()),
            1..=3 => {
                let (name, value) = match rng.below(8) {
                    0 => (rng.pick(&NAMES), any_expression(rng)),
                    1 => ("S00", rng.pick(&["'a'", "'b'", "$(S00)"]).to_string()),
                    2 => ("W00", rng.pick(&["L'a'", "L'b'"]).to_string()),
                    _ => {
                        let other = rng.pick(&["$(A00)", "$(B00)", "1", "0"]);
                        let value =
                            format!("{other} {} {}", rng.pick(&["+", "==", "OR"]), rng.below(3));
                        (rng.pick(&["A00", "B00"]), value)
                    }
                };
                out.push(format!("DEFINE {name} = {value}"));
            }
            _ if depth == 0 => {}
            _ => any_group(rng, depth - 1, out),
        }
    }
}

fn any_group(rng: &mut Prng, depth: usize, out: &mut Vec<String>) {
    let name = rng.pick(&NAMES);
    out.push(match rng.below(4) {
        0 => format!("!ifdef {name}"),
        1 => format!("!ifndef {name}"),
        _ => format!("!if {}", any_condition(rng)),
    });
    any_lines(rng, depth, out);
    for _ in 0..rng.below(2) {
        out.push(format!("!elseif {}", any_condition(rng)));
        any_lines(rng, depth, out);
    }
    if rng.below(2) == 0 {
        out.push("!else".to_string());
        any_lines(rng, depth, out);
    }
    out.push("!endif".to_string());
}

fn any_table(rng: &mut Prng) -> Vec<[u8; 128]> {
    let mut records = vec![number("g.P", 1)];
    for name in ["A00", "B00"] {
        if rng.below(2) == 0 {
            records.push(number(name, rng.below(3) as u64));
        }
    }
    if rng.below(4) > 0 {
        records.push(text("S00", rng.pick(&["a", "b"])));
    }
    if rng.below(4) > 0 {
        records.push(wide("W00", "a"));
    }
    records
}

/// The file so far, with other names and without DEFINE lines.
struct Told {
    lines: Vec<String>,
    records: Vec<[u8; 128]>,
    /// How often each macro was set.
    times: BTreeMap<String, usize>,
    count: u64,
    obeyed: Vec<usize>,
}

impl Told {
    /// The text with the names that its macros have now.
    fn renamed(&self, text: &str) -> String {
        self.times
            .iter()
            .fold(text.to_string(), |text, (name, times)| {
                text.replace(name.as_str(), &format!("{}{times:02}", &name[..1]))
            })
    }

    fn select(&self, edition: Edition, more: &[&str]) -> Selected {
        let lines: Vec<&str> = self
            .lines
            .iter()
            .map(String::as_str)
            .chain(more.iter().copied())
            .collect();
        selected_in(edition, lines.join("\n").as_bytes(), &table(&self.records))
    }

    /// Whether a plain line would be kept here; a refusal of an earlier line.
    fn is_live(&self, edition: Edition) -> Result<bool, (oracle::Refusal, usize)> {
        let ends = |word: &str| {
            self.lines
                .iter()
                .filter(|line| line.starts_with(word))
                .count()
        };
        let open = ends("!if") - ends("!endif");
        let more = [vec!["x"], vec!["!endif"; open]].concat();
        let (marks, _) = self.select(edition, &more)?;
        Ok(marks[self.lines.len()] == 1)
    }

    /// Takes one more line, or gives the refusal of a DEFINE.
    fn take(&mut self, edition: Edition, line: &str) -> Result<(), (oracle::Refusal, usize)> {
        let renamed = self.renamed(line);
        let Some(text) = line.strip_prefix("DEFINE ") else {
            self.lines.push(renamed);
            return Ok(());
        };
        if self.is_live(edition)? {
            let name = &text[..3];
            let front = line.find('=').unwrap() + 1;
            let settings = table(&self.records);
            let outcome = evaluate(&renamed.as_bytes()[front..], &settings, edition)
                .map_err(|refusal| (refusal.after(front), self.lines.len() + 1))?;
            let times = self.times.entry(name.to_string()).or_insert(0);
            *times += 1;
            let own = format!("{}{times:02}", &name[..1]);
            self.records.push(match outcome.value {
                Value::Number(value) => number(&own, value),
                Value::Text(bytes) => record(own.as_bytes(), 1, bytes),
                Value::Wide(bytes) => record(own.as_bytes(), 2, bytes),
            });
            self.count += outcome.count;
            self.obeyed.push(self.lines.len());
        }
        self.lines.push("x".to_string());
        Ok(())
    }
}

/// The answer to the file, told from calls on files without DEFINE lines.
fn told(edition: Edition, lines: &[String], records: &[[u8; 128]]) -> (Selected, usize) {
    let mut told = Told {
        lines: Vec::new(),
        records: records.to_vec(),
        times: BTreeMap::new(),
        count: 0,
        obeyed: Vec::new(),
    };
    for line in lines {
        if let Err(refusal) = told.take(edition, line) {
            return (Err(refusal), 0);
        }
    }
    let answer = told.select(edition, &[]).map(|(mut marks, count)| {
        for &line in &told.obeyed {
            marks[line] = 6;
        }
        (marks, count + told.count)
    });
    (answer, told.obeyed.len())
}

#[test]
fn as_if_the_table_had_them() {
    let mut rng = Prng(6);
    let (mut accepted, mut refused, mut obeyed) = ([0; 2], [0; 256], 0);
    for turn in 0..20_000 {
        let edition = EDITIONS[turn % 2];
        let mut lines = Vec::new();
        any_lines(&mut rng, 3, &mut lines);
        let records = any_table(&mut rng);
        let answer = selected_in(edition, lines.join("\n").as_bytes(), &table(&records));
        let (expected, defined) = told(edition, &lines, &records);
        assert_eq!(answer, expected, "{edition:?}\n{}", lines.join("\n"));
        match &answer {
            Ok(_) => accepted[turn % 2] += usize::from(defined > 1),
            Err((refusal, line)) => {
                let of_define = lines[line - 1].starts_with("DEFINE");
                refused[usize::from(refusal.number)] += usize::from(of_define);
            }
        }
        obeyed += defined;
    }
    assert!(accepted.iter().all(|&times| times > 1_000), "{accepted:?}");
    assert!(obeyed > 10_000, "{obeyed}");
    for number in [8, 9, 10, 11, 12] {
        assert!(refused[number] > 10, "{number}: {}", refused[number]);
    }
}
