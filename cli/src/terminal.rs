//! What a run reads and prints: files and streams, lines, unseen characters, values, JSON and the exit status.

mod annotation;
mod answers;
mod columns;
mod error;
mod escaping;
mod files;
mod identity;
mod json;
mod lines;
mod literals;
mod messages;
mod printing;
mod replacing;
mod streams;

pub use annotation::{annotated, has_colours};
pub use answers::{end, object, print_answer};
pub use columns::columns;
pub use error::{Error, Refused};
pub use escaping::{characters, escaped, Shown};
pub use files::{read, read_at_most, write};
pub use identity::is_same_file;
pub use json::{Json, Members};
pub use lines::{lines, without_end};
pub use literals::{hexadecimal, json_of_value, push_literal, quote_for};
pub use messages::say;
pub use printing::{print, print_shown};
