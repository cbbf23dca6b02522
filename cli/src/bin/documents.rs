//! Makes documents from the command's own description of its options: `documents man TEMPLATE`, `documents completion`.

use std::env;
use std::fs;
use std::io::{self, Write};
use std::process::ExitCode;

fn main() -> ExitCode {
    let written = made().and_then(|text| io::stdout().write_all(text.as_bytes()));
    match written {
        Ok(()) => ExitCode::SUCCESS,
        Err(error) => {
            eprintln!("documents: {error}");
            ExitCode::from(2)
        }
    }
}

fn made() -> io::Result<String> {
    let words: Vec<_> = env::args_os().skip(1).collect();
    match words.as_slice() {
        [word] if word == "completion" => Ok(command::documents::completion()),
        [word, template] if word == "man" => {
            let text = fs::read_to_string(template)?;
            Ok(command::documents::man_page(&text))
        }
        _ => Err(io::Error::other(
            "usage: documents man TEMPLATE | documents completion",
        )),
    }
}
