//! `names`: the macros and PCDs that description files name.

mod index;
mod shown;

use super::edition::edition;
use super::request::Request;
use super::subcommand::{Operand, Subcommand};
use crate::examined::Examined;
use crate::library::Terms;
use crate::terminal::{end, object, print, Error};
use index::Index;

pub static NAMES: Subcommand = Subcommand {
    name: "names",
    usage: "[-D NAME[=VALUE]].. [-U NAME].. [-s SETTINGS].. [-t TABLE] [--edition old|new] [--json] FILE..",
    summary: "the macros and PCDs that description files name",
    about: "Lists every macro and every PCD that the directives and DEFINE lines of the files name, read or not, and every macro that DEFINE
lines set: its value, or that it is not set, and the lines that set it and name it. FILE - is standard input.",
    example: r"printf '!if $(WEEK) LE 5\n  Watchdog.inf\n!endif\n' | korzhinay names -D WEEK=3 -",
    options: &["--define", "--undefine", "--settings", "--table", "--edition", "--json", "--help"],
    operand: Operand::Files,
    run,
};

fn run(request: &Request) -> Result<(), Error> {
    let edition = edition(request)?;
    let table = request.sources().merged()?;
    let terms = Terms {
        table: &table,
        edition,
    };
    let files = Examined::all(request.operands(), terms)?;
    let index = Index::new(&files, terms);
    let answer = match request.has("--json") {
        true => object(NAMES.name, shown::members(&index, &files, &table)),
        false => shown::rows(&index, &files, &table).into_bytes(),
    };
    let refused = files.iter().filter_map(|file| file.outcome.as_ref().err());
    let text: String = refused.map(|refused| refused.text.as_str()).collect();
    end(print(&answer), (!text.is_empty()).then_some(text))
}
