//! What `select` prints.

use super::report::Report;
use crate::examined::{is_kept, Examined};
use crate::notes;
use crate::terminal::{annotated, escaped, lines, object, without_end, Json, Members};

/// The answer in one of the forms; on a terminal it may have colours.
pub fn printed(
    form: Option<&str>,
    files: &[Examined],
    report: &Report,
    has_colours: bool,
) -> Vec<u8> {
    match form {
        Some("--json") => object("select", members(files, report)),
        Some("--annotate") => titled(files, |file| {
            let lines = file.marked().map(|(line, mark)| (without_end(line), mark));
            annotated(lines, has_colours)
        }),
        Some("--marks") => titled(files, |file| {
            file.marked().map(|(_, mark)| format!("{mark}\n")).collect()
        }),
        _ => joined(files, form == Some("--keep-lines")),
    }
}

/// The parts of all files, each after its name if there are several.
fn titled(files: &[Examined], part: impl Fn(&Examined) -> String) -> Vec<u8> {
    let titled = |file: &Examined| match files.len() {
        1 => part(file),
        _ => format!("==> {} <==\n{}", escaped(file.name), part(file)),
    };
    files.iter().map(titled).collect::<String>().into_bytes()
}

/// The kept lines of all files; every other line is left empty if `keeps_lines`, and left out if not. The last line of a file that has no
/// end gets one if something of another file follows, so that no line joins another one.
fn joined(files: &[Examined], keeps_lines: bool) -> Vec<u8> {
    let mut all = Vec::new();
    let mut is_open = false;
    for (line, mark) in files.iter().flat_map(Examined::marked) {
        let shown = match (is_kept(mark), keeps_lines) {
            (true, _) => line,
            (false, true) => &line[without_end(line).len()..],
            (false, false) => continue,
        };
        if is_open {
            all.push(b'\n');
        }
        all.extend(shown);
        is_open = !line.ends_with(b"\n");
    }
    all
}

/// How many lines of a file are kept.
pub fn kept(file: &Examined) -> usize {
    file.marked().filter(|(_, mark)| is_kept(*mark)).count()
}

/// What --json says of the run.
fn members(files: &[Examined], report: &Report) -> Members {
    let of_file = |(file, noted): (&Examined, &Vec<_>)| {
        let (operators, marks, refusal) = match &file.outcome {
            Ok(found) => (found.operators, found.marks.as_slice(), Json::Null),
            Err(refused) => (0, [].as_slice(), refused.json.clone()),
        };
        let marks = marks.iter().map(|mark| Json::Number((*mark).into()));
        Json::Object(vec![
            ("file", Json::text(file.name)),
            ("lines", Json::Number(lines(&file.bytes).count() as u64)),
            ("kept", Json::Number(kept(file) as u64)),
            ("operators", Json::Number(operators)),
            ("marks", Json::List(marks.collect())),
            ("notes", notes::json(noted)),
            ("refusal", refusal),
        ])
    };
    let parts = files.iter().zip(&report.of_files).map(of_file);
    vec![
        ("files", Json::List(parts.collect())),
        ("notes", notes::json(&report.of_run)),
    ]
}
