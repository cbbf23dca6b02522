//! How a run ends without an answer.

use std::process::ExitCode;

use super::json::Json;
use super::messages::say;

pub enum Error {
    /// A refusal by the rules.
    Refused(Refused),
    /// Refusals, or notes that are as good as one, of which everything was said.
    Said,
    /// A file that cannot be read or written, or a setting that no record can hold.
    Failed(String),
    /// What is wrong with the command line.
    Usage(String),
    /// Nobody reads the rest of standard output.
    BrokenPipe,
}

/// What is said of a refusal.
pub struct Refused {
    /// What standard error gets.
    pub text: String,
    /// The object for --json.
    pub json: Json,
}

impl Error {
    /// Says on standard error why there is no answer, and gives the exit status. The command and its usage are for a wrong command
    /// line.
    pub fn report(self, command: &str, usage: &str) -> ExitCode {
        let (status, text) = match self {
            Error::Refused(refused) => (1, refused.text),
            Error::Said => (1, String::new()),
            Error::Failed(reason) => (2, format!("korzhinay: {reason}\n")),
            Error::Usage(reason) => (
                2,
                format!("{command}: {reason}\nusage: {command} {usage}\n"),
            ),
            Error::BrokenPipe => (2, String::new()),
        };
        say(&text);
        ExitCode::from(status)
    }
}
