//! What a subcommand is.

use super::options::{OptionSpec, OPTIONS};
use super::request::Request;
use crate::terminal::Error;

pub struct Subcommand {
    pub name: &'static str,
    /// What comes after its name.
    pub usage: &'static str,
    /// What it gives, in a few words.
    pub summary: &'static str,
    pub about: &'static str,
    /// A call that can be pasted.
    pub example: &'static str,
    /// The long forms of the options that it takes.
    pub options: &'static [&'static str],
    pub operand: Operand,
    pub run: fn(&Request) -> Result<(), Error>,
}

impl Subcommand {
    /// The options that it takes.
    pub fn options(&self) -> impl Iterator<Item = &'static OptionSpec> + '_ {
        let is_taken = |option: &&OptionSpec| self.options.contains(&option.long);
        OPTIONS.iter().filter(is_taken)
    }
}

/// What a subcommand works on besides its options.
#[derive(Clone, Copy, PartialEq)]
pub enum Operand {
    /// One file or several.
    Files,
    /// As the last word it may begin with `-`.
    Expression,
    /// A short form of -t, which may be left out.
    Table,
}

impl Operand {
    pub fn word(self) -> &'static str {
        match self {
            Operand::Files => "FILE",
            Operand::Expression => "EXPRESSION",
            Operand::Table => "TABLE",
        }
    }
}
