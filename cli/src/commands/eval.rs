//! `eval`: the value of an expression.

use super::edition::edition;
use super::noted::noted;
use super::request::Request;
use super::subcommand::{Operand, Subcommand};
use crate::library::{self, Evaluation, Terms};
use crate::notes::{self, Note};
use crate::refusals::of_expression;
use crate::terminal::{
    json_of_value, print_answer, print_shown, push_literal, quote_for, Error, Json, Members,
};

pub static EVAL: Subcommand = Subcommand {
    name: "eval",
    usage: "[-D NAME[=VALUE]].. [-U NAME].. [-s SETTINGS].. [-t TABLE] [--edition old|new] [--warn-old] [--json] EXPRESSION",
    summary: "the value of an expression",
    about: "Prints the value of an expression: a number in decimal, a string in quotes, a wide string with L before them.",
    example: "korzhinay eval -D WEEK=50 '$(WEEK) GE 48 OR $(WEEK) LE 5'",
    options: &["--define", "--undefine", "--settings", "--table", "--edition", "--json", "--warn-old", "--help"],
    operand: Operand::Expression,
    run,
};

fn run(request: &Request) -> Result<(), Error> {
    if request.has("--json") {
        let value = |found: &Evaluation| (json_of_value(&found.value), found.operators);
        return print_answer(EVAL.name, evaluate(request, value), members);
    }
    let (line, _) = evaluate(request, line)?;
    print_shown(&line)
}

/// What is made of the value of the expression, and the notes.
fn evaluate<T>(
    request: &Request,
    made: impl Fn(&Evaluation) -> T,
) -> Result<(T, Vec<Note>), Error> {
    let edition = edition(request)?;
    let table = request.sources().merged()?;
    let terms = Terms {
        table: &table,
        edition,
    };
    let expression = request.operand();
    let found = library::evaluate(expression, terms)
        .map_err(|refusal| of_expression(expression, terms, &refusal))?;
    Ok((made(&found), noted(request)))
}

fn line(found: &Evaluation) -> Vec<u8> {
    let mut text = Vec::new();
    push_literal(&mut text, &found.value, quote_for(&found.value));
    text.push(b'\n');
    text
}

/// The value, the count of operators and the notes, for --json.
fn members(found: Option<((Json, u64), Vec<Note>)>) -> Members {
    let ((value, operators), noted) = found.unwrap_or(((Json::Null, 0), Vec::new()));
    vec![
        ("value", value),
        ("operators", Json::Number(operators)),
        ("notes", notes::json(&noted)),
    ]
}
