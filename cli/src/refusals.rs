//! What the command says of a refusal: its place, number and meaning, the text with a caret under the place, and what helps to put it
//! right. All of it is said on standard error, beside an answer that the library has given.

mod bad_token;
mod brief;
mod define;
mod directive;
mod excerpt;
mod expression;
mod field;
mod file;
mod grammar;
mod groups;
mod kinds;
mod line;
mod meanings;
mod meant;
mod message;
mod names;
mod operands;
mod results;
mod table;
mod unquoted;
mod values;

pub use expression::{of_expression, NAME as EXPRESSION};
pub use field::of_field;
pub use file::of_file;
pub use table::of_table;
