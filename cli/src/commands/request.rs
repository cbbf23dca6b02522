//! What follows a subcommand's name: options anywhere, and operands.

use super::options::{is_option, Attached, OptionSpec, REPEATABLE};
use super::subcommand::{Operand, Subcommand};
use crate::settings::{Definition, Sources};
use crate::terminal::escaped;

/// The options with their values, and the operands.
#[derive(Default)]
pub struct Request<'a> {
    options: Vec<(&'static str, &'a [u8])>,
    operands: Vec<&'a [u8]>,
}

impl<'a> Request<'a> {
    /// The request that the words make, or what is wrong with them.
    pub fn parse(words: &[&'a [u8]], subcommand: &Subcommand) -> Result<Request<'a>, String> {
        let mut request = Request::default();
        let mut words = words.iter().copied();
        while let Some(word) = words.next() {
            // A last word such as -1 is the expression if that is still missing.
            let is_missing = words.len() == 0 && request.operands.is_empty();
            let is_expression = subcommand.operand == Operand::Expression && is_missing;
            if word == b"--" {
                request.operands.extend(words.by_ref());
            } else if !word.starts_with(b"-") || word == b"-" || (is_expression && !is_option(word))
            {
                request.operands.push(word);
            } else {
                let (option, attached) = find(word, subcommand)
                    .ok_or_else(|| format!("unknown option {}", escaped(word)))?;
                let value = match (attached, option.value) {
                    (Attached::Nothing, "") => Some(b"".as_slice()),
                    (Attached::Nothing, _) => words.next(),
                    (Attached::Value(_), "") => {
                        return Err(format!("{} takes no value", option.long));
                    }
                    (Attached::Value(value), _) => Some(value),
                };
                let no_value = || format!("{} wants {}", option.word(), option.value);
                request.put_option(option, value.ok_or_else(no_value)?)?;
            }
        }
        request.checked(subcommand)
    }

    fn put_option(&mut self, option: &'static OptionSpec, value: &'a [u8]) -> Result<(), String> {
        if self.has(option.long) && !REPEATABLE.contains(&option.long) {
            return Err(format!("{} is given twice", option.word()));
        }
        self.options.push((option.long, value));
        Ok(())
    }

    /// The request, with `table TABLE` taken as `table -t TABLE`, if nothing is missing and nothing is left over.
    fn checked(mut self, subcommand: &Subcommand) -> Result<Request<'a>, String> {
        match (subcommand.operand, self.operands.as_slice()) {
            (Operand::Files, [_, ..]) | (Operand::Expression, [_]) | (Operand::Table, []) => {}
            (Operand::Table, [_]) if self.has("--table") => return Err("-t is given twice".into()),
            (Operand::Table, [table]) => self.options.push(("--table", table)),
            (operand, []) => return Err(format!("no {}", operand.word())),
            (operand, [_, second, ..]) => {
                let advice = match operand {
                    Operand::Expression => quoted(&self.operands),
                    _ => String::new(),
                };
                let second = escaped(second);
                return Err(format!("a second {}: {second}{advice}", operand.word()));
            }
        }
        let files = self.files(subcommand);
        let inputs = self.all("--settings").chain(self.one("--table"));
        match inputs.chain(files).filter(|input| *input == b"-").count() {
            0 | 1 => Ok(self),
            _ => Err("standard input can be read only once".into()),
        }
    }

    fn files(&self, subcommand: &Subcommand) -> Vec<&'a [u8]> {
        match subcommand.operand {
            Operand::Files => self.operands.clone(),
            _ => Vec::new(),
        }
    }

    pub fn has(&self, option: &str) -> bool {
        self.one(option).is_some()
    }

    pub fn one(&self, option: &str) -> Option<&'a [u8]> {
        self.all(option).next()
    }

    /// The values of an option, in the order given.
    pub fn all<'b>(&'b self, option: &'b str) -> impl Iterator<Item = &'a [u8]> + 'b {
        self.options
            .iter()
            .filter(move |(word, _)| *word == option)
            .map(|(_, value)| *value)
    }

    /// At most one of these options was given: that one.
    pub fn at_most_one(&self, options: &[&'static str]) -> Result<Option<&'static str>, String> {
        let mut given = options.iter().copied().filter(|option| self.has(option));
        match (given.next(), given.next()) {
            (Some(one), Some(other)) => Err(format!("{one} and {other} exclude each other")),
            (one, _) => Ok(one),
        }
    }

    /// The operand of a subcommand that takes one; a subcommand that needs one is not run without it.
    pub fn operand(&self) -> &'a [u8] {
        self.operands.first().copied().unwrap_or_default()
    }

    pub fn operands(&self) -> &[&'a [u8]] {
        &self.operands
    }

    /// Where the settings come from.
    pub fn sources(&self) -> Sources<'a> {
        let definition = |(word, value): &(&'static str, &'a [u8])| match *word {
            "--define" => Some(Definition::Set(value)),
            "--undefine" => Some(Definition::Unset(value)),
            _ => None,
        };
        Sources {
            table: self.one("--table"),
            files: self.all("--settings").collect(),
            definitions: self.options.iter().filter_map(definition).collect(),
        }
    }
}

/// The option of a subcommand that a word gives, and what is attached to it.
fn find<'a>(
    word: &'a [u8],
    subcommand: &Subcommand,
) -> Option<(&'static OptionSpec, Attached<'a>)> {
    let mut options = subcommand.options();
    options.find_map(|option| Some((option, option.attached(word)?)))
}

/// How a shell passes an expression of several words as one.
fn quoted(words: &[&[u8]]) -> String {
    let whole = words.join(b" ".as_slice());
    let has = |bytes: &[u8]| whole.iter().any(|byte| bytes.contains(byte));
    let text = escaped(&whole);
    let word = match (has(b"'"), has(b"\"$`\\!")) {
        (false, _) => format!("'{text}'"),
        (true, false) => format!("\"{text}\""),
        (true, true) => format!("'{}'", text.replace('\'', "'\\''")),
    };
    format!("; a shell passes an expression as one word if it is in quotes: {word}")
}
