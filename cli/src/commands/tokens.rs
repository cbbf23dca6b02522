//! `tokens`: the tokens of an expression.

use super::edition::edition;
use super::request::Request;
use super::subcommand::{Operand, Subcommand};
use crate::library::{self, token, Terms, Token, Tokens};
use crate::refusals::of_expression;
use crate::terminal::{end, escaped, print, print_answer, Error, Json};

pub static TOKENS: Subcommand = Subcommand {
    name: "tokens",
    usage: "[--edition old|new] [--json] EXPRESSION",
    summary: "the tokens of an expression",
    about: "Lists the tokens of an expression: where each starts, how many bytes it has, what it is, its text and, of a number or a
truth word, its value.",
    example: "korzhinay tokens '$(WEEK) GE 0x30'",
    options: &["--edition", "--json", "--help"],
    operand: Operand::Expression,
    run,
};

fn run(request: &Request) -> Result<(), Error> {
    let expression = request.operand();
    // No table has a part in tokens and their refusals.
    let terms = Terms {
        table: b"",
        edition: edition(request)?,
    };
    let Tokens { read, refusal } = library::tokens(expression, terms.edition);
    let outcome = match refusal {
        None => Ok(()),
        Some(refusal) => Err(of_expression(expression, terms, &refusal)),
    };
    if request.has("--json") {
        let objects = read.iter().map(|token| object(expression, token));
        let tokens = ("tokens", Json::List(objects.collect()));
        return print_answer(TOKENS.name, outcome, |_| vec![tokens]);
    }
    let rows: String = read.iter().map(|token| row(expression, token)).collect();
    let printed = print(rows.as_bytes());
    match outcome {
        Err(Error::Refused(refused)) => end(printed, Some(refused.text)),
        _ => printed,
    }
}

fn row(expression: &[u8], token: &Token) -> String {
    let Token { start, len, .. } = *token;
    let (code, text) = (code_in_words(token.code), escaped(text(expression, token)));
    let value = number(token).map_or(String::new(), |value| format!("  = {value}"));
    format!("{start:>4} {len:>4}  {code:<11}  {text}{value}\n")
}

/// The token for --json.
fn object(expression: &[u8], token: &Token) -> Json {
    Json::Object(vec![
        ("start", Json::Number(token.start as u64)),
        ("length", Json::Number(token.len as u64)),
        ("code", Json::Number(token.code.into())),
        ("kind", Json::text(code_in_words(token.code))),
        ("text", Json::text(text(expression, token))),
        ("number", number(token).map_or(Json::Null, Json::Number)),
    ])
}

fn text<'a>(expression: &'a [u8], token: &Token) -> &'a [u8] {
    &expression[token.start..][..token.len]
}

/// The value of a number or a truth word.
fn number(token: &Token) -> Option<u64> {
    [token::NUMBER, token::TRUTH]
        .contains(&token.code)
        .then_some(token.value)
}

fn code_in_words(code: u8) -> &'static str {
    match code {
        token::NUMBER => "number",
        token::TRUTH => "truth word",
        token::STRING => "string",
        token::WIDE => "wide string",
        token::MACRO => "macro",
        token::PCD => "PCD",
        token::BARE => "bare word",
        token::OPEN | token::CLOSE => "parenthesis",
        token::QUESTION | token::COLON => "choice",
        _ => "operator",
    }
}
