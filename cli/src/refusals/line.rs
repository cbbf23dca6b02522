//! Refusals of a line's expression, or of its value.

use std::collections::BTreeSet;

use super::define::{second_equals, too_long};
use super::expression;
use super::unquoted::{or_path, unquoted};
use super::values;
use crate::description::{define, expression_of_line, mentions, Sort};
use crate::library::{refusal, Terms};
use crate::scope::Scope;
use crate::terminal::escaped;

/// What helps with a refusal of a line that comes after these. The offset is counted from the line's start.
pub fn hint(
    before: &[&[u8]],
    line: &[u8],
    terms: Terms,
    number: u8,
    offset: usize,
) -> Option<String> {
    let (at, expression) = expression_of_line(line)?;
    let offset = offset.saturating_sub(at);
    let name = define(line).and_then(|found| Some(found.ok()?.name));
    if let Some(text) = name.and_then(|name| no_expression(name, expression, number, offset)) {
        return Some(text);
    }
    let scope = Scope::after(before, terms)?;
    let table = scope.table_for(line);
    let terms = Terms {
        table: &table,
        ..terms
    };
    let of_expression = || expression::hint(expression, terms, number, offset);
    let hint = match (number, name) {
        (refusal::CONDITION_VALUE, _) => condition(expression, terms)?,
        (refusal::DEFINED_LONG, Some(name)) => too_long(name, expression, terms)?,
        (_, Some(_)) => of_expression()? + &or_path(expression),
        (_, None) => of_expression()?,
    };
    let is_of_values = (refusal::KINDS_UNSUITED..=refusal::CONDITION_VALUE).contains(&number);
    let lines = is_of_values.then(|| set_above(line, &scope));
    Some(hint + &lines.unwrap_or_default())
}

/// What helps with what is no expression after a `DEFINE`.
fn no_expression(name: &[u8], expression: &[u8], number: u8, offset: usize) -> Option<String> {
    second_equals(expression).or_else(|| unquoted(name, expression, number, offset))
}

/// The value of a condition that is neither 0 nor 1, and what to compare it with.
fn condition(expression: &[u8], terms: Terms) -> Option<String> {
    let value = values::described(expression, terms)?;
    let comparison = match values::number(expression, terms) {
        Some(_) => "a comparison, as `(..) != 0`,",
        None => "a comparison with a string",
    };
    Some(format!("the value is {value}; {comparison} gives 0 or 1"))
}

/// How many macros a message has lines for.
const MAX_LISTED: usize = 5;

/// What a message goes on with on the macros of a line that the lines above it set.
fn set_above(line: &[u8], scope: &Scope) -> String {
    let mut seen = BTreeSet::new();
    let mut named = mentions(line);
    named.retain(|mention| mention.sort == Sort::Macro && seen.insert(mention.name));
    let set = named.iter().filter_map(|mention| {
        let line = scope.line_of(mention.name)?;
        Some(format!("; {} is set in line {line}", escaped(mention.text)))
    });
    set.take(MAX_LISTED).collect()
}
