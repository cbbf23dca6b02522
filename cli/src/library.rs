//! The calls of the proved library, with answers in Rust's types.

mod edition;
mod evaluation;
mod refused;
mod selection;
mod table;
mod terms;
mod tokens;
mod value;

pub use bindings::{datum, kind, limit, mark, refusal, token};
pub use edition::Edition;
pub use evaluation::{evaluate, field, Evaluation};
pub use refused::Refusal;
pub use selection::{select, Selection};
pub use table::{check_table, is_pcd, lookup};
pub use terms::Terms;
pub use tokens::{single_token, tokens, Token, Tokens};
pub use value::Value;
