//! The object that a run prints under --json.

use super::error::Error;
use super::json::{Json, Members};
use super::messages::say;
use super::printing::print;

/// It changes if a member goes or gets another meaning.
const FORMAT: u64 = 1;

/// The object of a subcommand, in one line.
pub fn object(subcommand: &str, members: Members) -> Vec<u8> {
    let mut all = vec![
        ("format", Json::Number(FORMAT)),
        ("command", Json::text(subcommand)),
    ];
    all.extend(members);
    Json::Object(all).line().into_bytes()
}

/// Prints the object of an answer, or of its refusal, which then ends the run. Where there is no answer, the members are made without it.
pub fn print_answer<T>(
    subcommand: &str,
    answer: Result<T, Error>,
    members: impl FnOnce(Option<T>) -> Members,
) -> Result<(), Error> {
    let (answer, refused) = match answer {
        Ok(answer) => (Some(answer), None),
        Err(Error::Refused(refused)) => (None, Some(refused)),
        Err(error) => return Err(error),
    };
    let mut members = members(answer);
    let refusal = refused.as_ref().map(|refused| refused.json.clone());
    members.push(("refusal", refusal.unwrap_or(Json::Null)));
    let printed = print(&object(subcommand, members));
    end(printed, refused.map(|refused| refused.text))
}

/// Ends a run that has printed something, or has failed to, and has refusals to report all the same.
pub fn end(printed: Result<(), Error>, refusals: Option<String>) -> Result<(), Error> {
    let Some(text) = refusals else {
        return printed;
    };
    say(&text);
    printed?;
    Err(Error::Said)
}
