//! Settings: NAME=VALUE as people write it, records, and the table that settings from several sources make.

mod blanks;
mod definition;
mod file;
mod hints;
mod literal;
mod record;
mod setting;
mod sources;

pub use blanks::{split_comment, trim};
pub use record::{encode, records, stored_name};
pub use sources::{Definition, Settings, Sources};
