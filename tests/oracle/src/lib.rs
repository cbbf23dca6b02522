//! A plain second implementation of document 01, and of orders 1, 3, 5 and 6 of
//! document 02.
//!
//! It exists to be compared with the product and to be timed against it, so
//! it is written from the papers alone and prefers the obvious form.

#![forbid(unsafe_code)]

mod arithmetic;
pub mod beginning;
pub mod bytes;
pub mod definition;
mod edition;
pub mod expression;
pub mod field;
mod kinds;
pub mod lines;
pub mod refusal;
pub mod selection;
pub mod settings;
pub mod table;
pub mod tokens;
pub mod tree;

pub use edition::{Edition, EDITIONS};
pub use expression::{evaluate, Answer, Kind, Outcome, Value};
pub use field::field;
pub use refusal::Refusal;
pub use selection::select;
pub use table::{is_well_formed, lookup, Setting};
pub use tokens::{scan, Scan, Token};
