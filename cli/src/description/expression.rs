//! Lines that have an expression.

use super::define::define;
use super::directive::directive;

/// The expression of a line, and its offset: that of an `!if` or an `!elseif`, or of a `DEFINE`.
pub fn expression_of_line(line: &[u8]) -> Option<(usize, &[u8])> {
    let start = match directive(line) {
        Some(found) => matches!(found.word, b"if" | b"elseif" | b"elif").then_some(found.text),
        None => define(line)?.ok().map(|found| found.text),
    };
    start.map(|start| (start, &line[start..]))
}
