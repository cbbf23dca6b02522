//! The command `korzhinay`.

use std::process::ExitCode;

fn main() -> ExitCode {
    command::main()
}
