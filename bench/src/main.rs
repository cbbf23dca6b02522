//! Times the proved library beside the independent Rust implementation, and the command whose path is given beside other tools, on
//! the same inputs; release builds. With `--instructions FOLDER` it counts the library's instructions instead.

#![forbid(unsafe_code)]

mod edition;
mod evaluation;
mod expressions;
mod files;
mod folder;
mod instructions;
mod processes;
mod selection;
mod settings;
mod tables;
mod timing;
mod tokens;

use std::path::Path;

fn main() {
    let arguments: Vec<String> = std::env::args().skip(1).collect();
    match arguments.iter().map(String::as_str).collect::<Vec<_>>()[..] {
        ["--instructions", folder] => instructions::count(Path::new(folder)),
        // The program itself under valgrind.
        ["--once", name] => instructions::call(name),
        [path] => time(path),
        _ => panic!("the path of the command, or --instructions and a folder"),
    }
}

fn time(path: &str) {
    // Now, since the processes come last and run in another folder.
    let command = std::fs::canonicalize(path).unwrap_or_else(|error| panic!("{path}: {error}"));
    println!(
        "Medians of {} rounds, or of as many as a line says. What is compared runs in turns.",
        timing::ROUNDS
    );
    tokens::time();
    tables::time();
    evaluation::time();
    selection::time();
    println!("Each evaluation, each lookup and each selection checks its whole table, on both sides. No lent array is cleared between");
    println!("calls. The library clears its own token arrays in each evaluation, the other side makes vectors; both count.");
    processes::time(&command);
    println!(
        "Whole processes count from start to end; what they write goes into a pipe that is read."
    );
}
