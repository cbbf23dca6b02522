//! The names in rows, and in JSON.

use super::index::{Index, Name, Place};
use crate::description::Sort;
use crate::examined::Examined;
use crate::library::lookup;
use crate::terminal::{columns, escaped, json_of_value, push_literal, quote_for, Json, Members};

/// What is said of lines, by whether they are read: of those that set a name, and of those that name it.
const SETTING: [(Option<bool>, &str); 3] = [
    (Some(true), "set in"),
    (Some(false), "DEFINE not read"),
    (None, "DEFINE in"),
];
const NAMING: [(Option<bool>, &str); 3] = [
    (Some(true), "read"),
    (Some(false), "not read"),
    (None, "named in"),
];

/// One row for each name: macro or PCD, the name, its value, and the lines of each file.
pub fn rows(index: &Index, files: &[Examined], table: &[u8]) -> String {
    let row = |((text, sort), name): (&(&[u8], Sort), &Name)| {
        [
            sort.word().into(),
            escaped(text),
            value(table, text, name),
            lines(name, files),
        ]
    };
    let rows: Vec<[String; 4]> = index.0.iter().map(row).collect();
    let width = |column: usize| {
        let widths = rows.iter().map(|row| columns(&row[column]));
        widths.max().unwrap_or(0)
    };
    let widths = [0, 1, 2].map(width);
    let shown = |[first @ .., lines]: &[String; 4]| {
        let padded = |(text, width): (&String, usize)| {
            let blanks = " ".repeat(width - columns(text) + 2);
            text.to_owned() + &blanks
        };
        first.iter().zip(widths).map(padded).collect::<String>() + lines + "\n"
    };
    rows.iter().map(shown).collect()
}

/// The value of a name's setting, as `table` lists it. Without one a line of a file may set it.
fn value(table: &[u8], text: &[u8], name: &Name) -> String {
    match lookup(table, text) {
        Some(value) => {
            let mut literal = Vec::new();
            push_literal(&mut literal, &value, quote_for(&value));
            escaped(&literal)
        }
        None if name.defined.iter().any(|(_, record)| record.is_some()) => "by DEFINE".into(),
        None => "not set".into(),
    }
}

/// The lines that set a name or have it, file by file.
fn lines(name: &Name, files: &[Examined]) -> String {
    let of_file = |(at, file): (usize, &Examined)| {
        let is_here = |place: &&Place| place.file == at;
        let setting = name.defined.iter().map(|(place, _)| place);
        let setting: Vec<&Place> = setting.filter(is_here).collect();
        let naming: Vec<&Place> = name.places.iter().filter(is_here).collect();
        let setting = SETTING
            .iter()
            .filter_map(|state| lines_of(&setting, *state));
        let naming = NAMING.iter().filter_map(|state| lines_of(&naming, *state));
        let states: Vec<String> = setting.chain(naming).collect();
        (!states.is_empty()).then(|| format!("{}: {}", escaped(file.name), states.join("; ")))
    };
    let parts: Vec<String> = files.iter().enumerate().filter_map(of_file).collect();
    parts.join(" | ")
}

/// The lines of the places that are so, after the word for it.
fn lines_of(places: &[&Place], (is_read, word): (Option<bool>, &str)) -> Option<String> {
    let so = places.iter().filter(|place| place.is_read == is_read);
    let mut lines: Vec<usize> = so.map(|place| place.line).collect();
    lines.dedup();
    let lines: Vec<String> = lines.iter().map(usize::to_string).collect();
    (!lines.is_empty()).then(|| format!("{word} {}", lines.join(", ")))
}

/// What --json says of the names.
pub fn members(index: &Index, files: &[Examined], table: &[u8]) -> Members {
    let of_file = |file: &Examined| {
        let refusal = file.outcome.as_ref().err();
        Json::Object(vec![
            ("file", Json::text(file.name)),
            (
                "refusal",
                refusal.map_or(Json::Null, |refused| refused.json.clone()),
            ),
        ])
    };
    let of_name = |((text, sort), name): (&(&[u8], Sort), &Name)| {
        let places = name.places.iter().map(|place| json_of_place(place, files));
        let defined = name.defined.iter().map(|(place, record)| {
            let mut members = json_of_place(place, files);
            let record = record.as_deref().unwrap_or_default();
            members.push(("value", json_of_setting(record, text)));
            members
        });
        Json::Object(vec![
            ("name", Json::text(text)),
            ("sort", Json::text(sort.word())),
            ("value", json_of_setting(table, text)),
            ("places", Json::List(places.map(Json::Object).collect())),
            ("defined", Json::List(defined.map(Json::Object).collect())),
        ])
    };
    vec![
        ("files", Json::List(files.iter().map(of_file).collect())),
        ("names", Json::List(index.0.iter().map(of_name).collect())),
    ]
}

fn json_of_place(place: &Place, files: &[Examined]) -> Members {
    vec![
        ("file", Json::text(files[place.file].name)),
        ("line", Json::Number(place.line as u64)),
        ("column", Json::Number(place.column as u64)),
        ("read", place.is_read.map_or(Json::Null, Json::Bool)),
    ]
}

/// The value of a name in a table.
fn json_of_setting(table: &[u8], name: &[u8]) -> Json {
    let value = lookup(table, name);
    value.as_ref().map_or(Json::Null, json_of_value)
}
