//! `field`: the bytes of a data field.

use super::datum::{datum_type, DatumType};
use super::edition::edition;
use super::noted::noted;
use super::request::Request;
use super::subcommand::{Operand, Subcommand};
use crate::library::{self, Terms};
use crate::notes::{self, Note};
use crate::refusals::of_field;
use crate::terminal::{escaped, hexadecimal, print, print_answer, Error, Json, Members};

pub static FIELD: Subcommand = Subcommand {
    name: "field",
    usage: "--datum TYPE [-D NAME[=VALUE]].. [-U NAME].. [-s SETTINGS].. [-t TABLE] [--edition old|new] \
            [--warn-old] [--json] EXPRESSION",
    summary: "the bytes of a PCD data field",
    about: "Prints the bytes of a PCD data field in hexadecimal.",
    example: "korzhinay field --datum UINT16 '0x12 << 8 ^ 0x34'",
    options: &[
        "--datum",
        "--define",
        "--undefine",
        "--settings",
        "--table",
        "--edition",
        "--json",
        "--warn-old",
        "--help",
    ],
    operand: Operand::Expression,
    run,
};

fn run(request: &Request) -> Result<(), Error> {
    let name = request.one("--datum").ok_or("no --datum TYPE");
    let name = name.map_err(|reason| Error::Usage(reason.into()))?;
    let unknown = || Error::Usage(format!("unknown datum type {}", escaped(name)));
    let DatumType { code, taken, .. } = datum_type(name).ok_or_else(unknown)?;
    let edition = edition(request)?;
    let found = request.sources().merged().and_then(|table| {
        let terms = Terms {
            table: &table,
            edition,
        };
        let expression = request.operand();
        let bytes = library::field(expression, terms, *code)
            .map_err(|refusal| of_field(expression, terms, (name, taken), &refusal))?;
        Ok((bytes, noted(request)))
    });
    if request.has("--json") {
        return print_answer(FIELD.name, found, |found| members(name, found));
    }
    let (bytes, _) = found?;
    print((hexadecimal(&bytes, " ") + "\n").as_bytes())
}

/// The type, the bytes and the notes, for --json.
fn members(name: &[u8], found: Option<(Vec<u8>, Vec<Note>)>) -> Members {
    let (bytes, noted) = found.unzip();
    let length = bytes.as_ref().map_or(0, Vec::len);
    let digits = bytes.map(|bytes| hexadecimal(&bytes, ""));
    vec![
        ("datum", Json::text(name)),
        ("length", Json::Number(length as u64)),
        ("bytes", digits.map_or(Json::Null, Json::text)),
        ("notes", notes::json(&noted.unwrap_or_default())),
    ]
}
