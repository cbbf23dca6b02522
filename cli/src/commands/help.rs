//! What --help prints.

use super::options::OPTIONS;
use super::subcommand::Subcommand;
use super::{command, usage, SUBCOMMANDS};

const ABOUT: &str =
    "Reads the conditional language of EDK II description files. The decisions are made by proved code.";

const HELP: (&str, &str) = (
    "help",
    "prints this, and before a subcommand what that one takes; so do --help and -h after it",
);

const REST: &str = "
A setting is NAME=VALUE: a macro or a PCD, and a number, a truth word, a \"string\", an L\"string\" or a word. NAME alone is 1.
The language has two editions. The new one refuses what EDK II's specification says may go: a bare word as a string after == or !=,
and $(NAME) after !ifdef. The old one is the default: existing files use both, and it accepts all that the new one accepts, with the
same answers.
Exit status: 0 an answer; 1 a refusal by the rules, or a note under --strict; 2 wrong usage, a file that cannot be read or written,
or a wrong setting.

example: korzhinay eval -D WEEK=50 '$(WEEK) GE 48 OR $(WEEK) LE 5'
";

/// The help of the command.
pub fn overview() -> String {
    let row = |(word, about): (&str, &str)| format!("  {word:<9}  {about}\n");
    let subcommands = SUBCOMMANDS.map(|one| (one.name, one.summary));
    let version = OPTIONS.iter().filter(|option| option.long == "--version");
    let version = version.map(|option| (option.long, option.about));
    let rows = subcommands.into_iter().chain([HELP]).chain(version);
    let rows: String = rows.map(row).collect();
    let usage = usage(None);
    format!("usage: korzhinay {usage}\n\n{ABOUT}\n\n{rows}{REST}")
}

/// The help of a subcommand.
pub fn of(subcommand: &Subcommand) -> String {
    let Subcommand { about, example, .. } = subcommand;
    let rows: String = subcommand
        .options()
        .map(|option| {
            let forms = match option.short {
                "" => format!("    {}", option.long),
                short => format!("{short}, {}", option.long),
            };
            let forms = format!("{forms} {}", option.value);
            format!("  {forms:<27}  {}\n", option.about)
        })
        .collect();
    let (name, usage) = (command(Some(subcommand)), usage(Some(subcommand)));
    format!("usage: {name} {usage}\n\n{about}\n\n{rows}\nexample: {example}\n")
}
