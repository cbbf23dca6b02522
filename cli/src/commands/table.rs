//! `table`: settings as a list or as a table.

use super::output;
use super::request::Request;
use super::subcommand::{Operand, Subcommand};
use crate::description::Sort;
use crate::library::{self, is_pcd, Value};
use crate::settings::{records, stored_name};
use crate::terminal::{
    hexadecimal, json_of_value, print_answer, print_shown, push_literal, quote_for, write, Error,
    Json,
};

pub static TABLE: Subcommand = Subcommand {
    name: "table",
    usage: "[-D NAME[=VALUE]].. [-U NAME].. [-s SETTINGS].. [-t TABLE] [-o OUT | --json] [TABLE]",
    summary: "settings as a list or as a table of records",
    about: "Lists settings, one NAME=VALUE per line, as -s reads them, or writes them as a table. TABLE is short for -t TABLE.",
    example: "korzhinay table -D BOARD=SPAR -D WEEK=3",
    options: &["--define", "--undefine", "--settings", "--table", "--output", "--json", "--help"],
    operand: Operand::Table,
    run,
};

fn run(request: &Request) -> Result<(), Error> {
    let (out, is_json) = (request.one("--output"), request.has("--json"));
    let sources = request.sources();
    match out {
        Some(_) if is_json => Err(Error::Usage("-o and --json exclude each other".into())),
        // A table may be written over itself, a file of settings not.
        Some(file) => {
            output::check(file, request.all("--settings"))?;
            write(file, &sources.merged()?)
        }
        None if sources.is_empty() => Err(Error::Usage("no settings to list".into())),
        None if is_json => print_answer(TABLE.name, sources.merged(), |table| {
            vec![("settings", objects(&table.unwrap_or_default()))]
        }),
        None => print_shown(&listing(&sources.merged()?)),
    }
}

/// The settings of a table: each name with its value.
fn settings(table: &[u8]) -> impl Iterator<Item = (&[u8], Value<'_>)> {
    let named = |name| Some((name, library::lookup(table, name)?));
    records(table).map(stored_name).filter_map(named)
}

/// The settings of a table for --json.
fn objects(table: &[u8]) -> Json {
    let sort = |name| match is_pcd(name) {
        true => Sort::Pcd,
        false => Sort::Macro,
    };
    let object = |(name, value)| {
        Json::Object(vec![
            ("name", Json::text(name)),
            ("sort", Json::text(sort(name).word())),
            ("value", json_of_value(&value)),
        ])
    };
    Json::List(settings(table).map(object).collect())
}

/// The settings of a table, as a file of settings has them.
fn listing(table: &[u8]) -> Vec<u8> {
    let mut text = Vec::new();
    for (name, value) in settings(table) {
        push_line(&mut text, name, &value);
    }
    text
}

/// One setting, or a comment where no quotes can hold the string.
fn push_line(text: &mut Vec<u8>, name: &[u8], value: &Value) {
    let (Value::String(string) | Value::Wide(string)) = value else {
        return push_setting(text, name, value);
    };
    let not_held = [b'\r', b'\n', quote_for(value)];
    if not_held.iter().any(|byte| string.contains(byte)) {
        text.extend([b"# ", name].concat());
        let (kind, bytes) = (value.kind(), hexadecimal(string, " "));
        text.extend(format!(": a {kind} that no quotes can hold, in bytes: {bytes}\n").bytes());
    } else {
        push_setting(text, name, value);
    }
}

fn push_setting(text: &mut Vec<u8>, name: &[u8], value: &Value) {
    text.extend(name);
    text.push(b'=');
    push_literal(text, value, quote_for(value));
    text.push(b'\n');
}
