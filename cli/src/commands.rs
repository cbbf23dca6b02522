//! The subcommands: what each takes, what --help prints of it, and what it does.

pub mod datum;
pub mod edition;
mod eval;
mod field;
mod help;
mod names;
mod noted;
pub mod options;
mod output;
mod request;
mod select;
pub mod subcommand;
mod table;
mod tokens;
mod wrapping;

use request::Request;
use subcommand::Subcommand;
pub use wrapping::wrapped;

use crate::terminal::{escaped, print, Error};

pub static SUBCOMMANDS: [&Subcommand; 6] = [
    &select::SELECT,
    &names::NAMES,
    &eval::EVAL,
    &field::FIELD,
    &tokens::TOKENS,
    &table::TABLE,
];

/// The columns of a usage.
const COLUMNS: usize = 110;

/// The subcommand of a name.
fn named(name: &[u8]) -> Option<&'static Subcommand> {
    let mut all = SUBCOMMANDS.into_iter();
    all.find(|subcommand| subcommand.name.as_bytes() == name)
}

/// The subcommand that the first word names.
pub fn find(words: &[&[u8]]) -> Option<&'static Subcommand> {
    named(words.first()?)
}

/// Runs the command on the words after its name.
pub fn run(subcommand: Option<&Subcommand>, words: &[&[u8]]) -> Result<(), Error> {
    match (subcommand, words) {
        (Some(subcommand), [_, rest @ ..]) => run_subcommand(subcommand, rest),
        _ => run_without_subcommand(words),
    }
}

fn run_subcommand(subcommand: &Subcommand, words: &[&[u8]]) -> Result<(), Error> {
    // --help works even if something else is wrong.
    let mut options = words.iter().take_while(|word| **word != b"--");
    if options.any(|word| matches!(*word, b"--help" | b"-h")) {
        return print(help::of(subcommand).as_bytes());
    }
    let request = Request::parse(words, subcommand).map_err(Error::Usage)?;
    (subcommand.run)(&request)
}

fn run_without_subcommand(words: &[&[u8]]) -> Result<(), Error> {
    match words {
        [b"--help" | b"-h", ..] => print(help::overview().as_bytes()),
        [b"--version", ..] => {
            print(concat!("korzhinay ", env!("CARGO_PKG_VERSION"), "\n").as_bytes())
        }
        [b"help", rest @ ..] => help(rest),
        [word, ..] => Err(unknown(word)),
        [] => Err(Error::Usage("no subcommand".into())),
    }
}

/// `help`: that of the command, or of the subcommand that follows.
fn help(words: &[&[u8]]) -> Result<(), Error> {
    match words {
        [] | [b"help" | b"--help" | b"-h"] => print(help::overview().as_bytes()),
        [word] => match named(word) {
            Some(subcommand) => print(help::of(subcommand).as_bytes()),
            None => Err(unknown(word)),
        },
        [_, second, ..] => Err(Error::Usage(format!(
            "a second subcommand: {}",
            escaped(second)
        ))),
    }
}

fn unknown(word: &[u8]) -> Error {
    Error::Usage(format!("unknown subcommand {}", escaped(word)))
}

/// The command with its subcommand.
pub fn command(subcommand: Option<&Subcommand>) -> String {
    let name = subcommand.map(|subcommand| format!(" {}", subcommand.name));
    format!("korzhinay{}", name.unwrap_or_default())
}

/// How the command, or a subcommand, is used: what follows `usage: ` and its name. Further lines begin below the first word.
pub fn usage(subcommand: Option<&Subcommand>) -> String {
    let names = SUBCOMMANDS.map(|subcommand| subcommand.name).join(" | ");
    let usage = match subcommand {
        Some(subcommand) => subcommand.usage.into(),
        None => format!("{names} | help [OPTION].. [OPERAND].."),
    };
    let indent = format!("usage: {} ", command(subcommand)).len();
    wrapped(&usage, indent, COLUMNS)
}

#[cfg(test)]
mod tests {
    use super::datum::DATUM_TYPES;
    use super::options::OPTIONS;
    use super::SUBCOMMANDS;

    /// The words of a text that are options.
    fn options(text: &str) -> Vec<&str> {
        let is_end = |c: char| !c.is_ascii_alphabetic() && c != '-';
        let mut words: Vec<&str> = text.split(is_end).collect();
        words.retain(|word| word.starts_with('-'));
        words.sort();
        words
    }

    #[test]
    fn usages_have_the_options() {
        for subcommand in SUBCOMMANDS {
            let taken = subcommand
                .options()
                .filter(|option| option.long != "--help");
            let mut words: Vec<&str> = taken.map(|option| option.word()).collect();
            words.sort();
            assert_eq!(options(subcommand.usage), words, "{}", subcommand.name);
        }
    }

    #[test]
    fn options_are_known() {
        for subcommand in SUBCOMMANDS {
            assert_eq!(subcommand.options().count(), subcommand.options.len());
        }
    }

    #[test]
    fn texts_have_the_datum_types() {
        let datum = OPTIONS.iter().find(|option| option.long == "--datum");
        for text in datum
            .iter()
            .flat_map(|option| [option.about, option.manual])
        {
            for datum in &DATUM_TYPES {
                assert!(text.contains(datum.name), "{text}");
            }
        }
    }
}
