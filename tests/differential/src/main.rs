//! Compares the korzhinay library with the oracle on many inputs, in both
//! editions.
//!
//! The folder of `libkorzhinay.a` is given when this is built:
//! `KORZHINAY_LIB_DIR=folder cargo run --release`.

#![deny(clippy::undocumented_unsafe_blocks, unsafe_op_in_unsafe_fn)]

mod bars;
mod crash;
mod definitions;
mod editions;
mod evaluations;
mod fields;
mod gen;
mod isolation;
mod lent;
mod library;
mod prng;
mod read;
mod report;
mod selections;
mod subject;
mod tables;
mod tokens;

use std::process::ExitCode;
use std::time::Duration;

use subject::{Load, Subject};

const USAGE: &str = "usage: differential [--seed N] [--tables N] [--expressions N] \
[--evaluations N] [--fields N] [--selections N] [--isolation N] [--seconds N] [--case N]
  --seed N         where the random inputs start (default 1)
  --tables N       random cases of tables (default 20000, 0 leaves them out)
  --expressions N  random cases of tokens (default 200000, 0 leaves them out)
  --evaluations N  random cases of a table and four expressions (default 100000, 0 leaves them out)
  --fields N       random cases of a table and four fields (default 50000, 0 leaves them out)
  --selections N   random cases of a table and three files (default 25000, 0 leaves them out)
  --isolation N    random pairs of files and tables that agree in what is read (default 40000, 0 leaves them out)
  --seconds N      go on after these cases until N seconds are over, shared among the subjects
  --case N         run only the random case N of each subject, to look into a mismatch";

struct Options {
    seed: u64,
    tables: u64,
    expressions: u64,
    evaluations: u64,
    fields: u64,
    selections: u64,
    isolation: u64,
    seconds: u64,
    case: Option<u64>,
}

impl Options {
    fn read(mut arguments: impl Iterator<Item = String>) -> Option<Options> {
        let mut options = Options {
            seed: 1,
            tables: 20_000,
            expressions: 200_000,
            evaluations: 100_000,
            fields: 50_000,
            selections: 25_000,
            isolation: 40_000,
            seconds: 0,
            case: None,
        };
        while let Some(name) = arguments.next() {
            let number = arguments.next()?.parse().ok()?;
            match name.as_str() {
                "--seed" => options.seed = number,
                "--tables" => options.tables = number,
                "--expressions" => options.expressions = number,
                "--evaluations" => options.evaluations = number,
                "--fields" => options.fields = number,
                "--selections" => options.selections = number,
                "--isolation" => options.isolation = number,
                "--seconds" => options.seconds = number,
                "--case" => options.case = Some(number),
                _ => return None,
            }
        }
        Some(options)
    }
}

fn main() -> ExitCode {
    let Some(options) = Options::read(std::env::args().skip(1)) else {
        eprintln!("{USAGE}");
        return ExitCode::from(2);
    };
    crash::install(options.seed);

    let mut subjects: Vec<(&dyn Subject, u64)> = vec![
        (&tables::Tables, options.tables),
        (&tokens::Tokens, options.expressions),
        (&evaluations::Evaluations, options.evaluations),
        (&fields::Fields, options.fields),
        (&selections::Selections, options.selections),
        (&isolation::Isolation, options.isolation),
    ];
    subjects.retain(|(_, cases)| *cases > 0);

    let share = Duration::from_secs(options.seconds) / subjects.len().max(1) as u32;
    for (subject, cases) in subjects {
        let load = Load {
            seed: options.seed,
            cases,
            time: share,
            only: options.case,
        };
        if !subject::run(subject, &load) {
            return ExitCode::FAILURE;
        }
    }
    ExitCode::SUCCESS
}
