//! `select`: the lines of description files that are kept.

mod forms;
mod report;

use super::edition::edition;
use super::output;
use super::request::Request;
use super::subcommand::{Operand, Subcommand};
use crate::examined::Examined;
use crate::library::Terms;
use crate::terminal::{has_colours, say, write, Error};
use report::Report;

pub static SELECT: Subcommand = Subcommand {
    name: "select",
    usage: "[-D NAME[=VALUE]].. [-U NAME].. [-s SETTINGS].. [-t TABLE] [--edition old|new] \
            [--annotate | --marks | --keep-lines | --json] [--warn-old] [--quiet | --strict] [-o OUT] FILE..",
    summary: "the lines of description files that are kept",
    about: "Prints the lines of description files that are kept, byte for byte. FILE - is standard input.
A kept line DEFINE NAME = EXPRESSION sets a macro for the lines below it, over -D, -s and -t.
Marks: 0 a dropped line, 1 a kept one, 6 a kept DEFINE; of directives 2 not read, 3 branch not taken, 4 branch taken, 5 a read !endif.
On a terminal --annotate dims the marks 0 and 2, unless NO_COLOR is set.
Notes on standard error name what may be a slip: macros that are not set, settings that nothing uses, lines that are not obeyed.",
    example: r"printf '!if $(WEEK) LE 5\n  Watchdog.inf\n!endif\n' | korzhinay select -D WEEK=3 --annotate -",
    options: &[
        "--define",
        "--undefine",
        "--settings",
        "--table",
        "--edition",
        "--output",
        "--annotate",
        "--marks",
        "--keep-lines",
        "--json",
        "--warn-old",
        "--quiet",
        "--strict",
        "--help",
    ],
    operand: Operand::Files,
    run,
};

fn run(request: &Request) -> Result<(), Error> {
    let forms = ["--annotate", "--marks", "--keep-lines", "--json"];
    let form = request.at_most_one(&forms).map_err(Error::Usage)?;
    let loudness = request.at_most_one(&["--quiet", "--strict"]);
    let loudness = loudness.map_err(Error::Usage)?;
    let edition = edition(request)?;
    let output = request.one("--output").unwrap_or(b"-");
    let inputs = request.all("--settings").chain(request.one("--table"));
    output::check(output, inputs.chain(request.operands().iter().copied()))?;

    let settings = request.sources().settings()?;
    let terms = Terms {
        table: &settings.table,
        edition,
    };
    let files = Examined::all(request.operands(), terms)?;

    let report = match loudness {
        Some("--quiet") => Report::without_notes(&files),
        _ => Report::new(&files, &settings, request.has("--warn-old")),
    };
    let is_refused = files.iter().any(|file| file.outcome.is_err());
    let is_strict = loudness == Some("--strict") && report.count() > 0;
    say(&report.text(&files, loudness));
    if !is_strict && (!is_refused || form == Some("--json")) {
        let has_colours = output == b"-" && has_colours();
        write(output, &forms::printed(form, &files, &report, has_colours))?;
    }
    match is_refused || is_strict {
        true => Err(Error::Said),
        false => Ok(()),
    }
}
