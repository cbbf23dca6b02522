//! The notes on an expression of the command line.

use super::request::Request;
use crate::notes::{self, Note};
use crate::refusals::EXPRESSION;
use crate::terminal::say;

/// The notes that a request wants on its expression, which is accepted. They are said at once.
pub fn noted(request: &Request) -> Vec<Note> {
    if !request.has("--warn-old") {
        return Vec::new();
    }
    let found = notes::of_expression(EXPRESSION, request.operand());
    say(&notes::messages(&found));
    found
}
