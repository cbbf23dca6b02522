//! What is made from the one description of subcommands and options besides --help: the man page's parts, and the completion for bash.

mod completion;
mod manual;
mod roff;

pub use completion::completion;
pub use manual::man_page;
