//! The man page: the synopsis and the options are put into its template.

use super::roff;
use crate::commands::options::{OptionSpec, OPTIONS};
use crate::commands::subcommand::{Operand, Subcommand};
use crate::commands::{wrapped, SUBCOMMANDS};

/// The columns of a synopsis, on a page of 80.
const COLUMNS: usize = 72;

/// The page that a template makes.
pub fn man_page(template: &str) -> String {
    let options: String = OPTIONS.iter().map(entry).collect();
    template
        .replace("@VERSION@", env!("CARGO_PKG_VERSION"))
        .replace("@SYNOPSIS@\n", &synopsis())
        .replace("@OPTIONS@\n", &options)
}

fn synopsis() -> String {
    let of_one = |subcommand: &Subcommand| {
        let name = format!("korzhinay {} ", subcommand.name);
        let lines = wrapped(subcommand.usage, name.len(), COLUMNS);
        format!("\\fB{name}\\fR{}\n", roff::usage(&lines))
    };
    let all: String = SUBCOMMANDS.into_iter().map(of_one).collect();
    let rest = "\\fBkorzhinay help\\fR [\\fIsubcommand\\fR]\n\\fBkorzhinay \\-\\-version\\fR\n";
    format!(".nf\n{all}{rest}.fi\n")
}

/// The entry of an option.
fn entry(option: &OptionSpec) -> String {
    let long = match option.value {
        "" => option.long.into(),
        value => format!("{}={value}", option.long),
    };
    let forms = match option.short {
        "" => roff::usage(&long),
        _ => format!("{}, {}", roff::usage(&option.shown()), roff::usage(&long)),
    };
    let takers = SUBCOMMANDS
        .iter()
        .filter(|one| one.options.contains(&option.long));
    let takers: Vec<&str> = takers.map(|one| one.name).collect();
    let takers = match takers.len() {
        0 => "\n".into(),
        _ => format!("\n({})\n", takers.join(", ")),
    };
    let text = roff::prose(option.manual, &values());
    format!(".TP\n{forms}\n{}{takers}", text.trim_end())
}

/// The words for the values of options, and for files.
fn values() -> Vec<&'static str> {
    let is_end = |c: char| !c.is_ascii_uppercase();
    let values = OPTIONS.iter().flat_map(|option| option.value.split(is_end));
    values
        .chain([Operand::Files.word()])
        .filter(|word| !word.is_empty())
        .collect()
}
