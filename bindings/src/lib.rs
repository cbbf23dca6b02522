//! The calls of the proved library for Rust: the functions, codes, refusals and limits of include/korzhinay.h, which describes them all.
//!
//! The functions at the root take slices and references. `raw` has the C functions themselves, for a caller that needs pointers.

#![deny(clippy::undocumented_unsafe_blocks, unsafe_op_in_unsafe_fn)]

mod calls;
pub mod datum;
pub mod edition;
pub mod kind;
pub mod limit;
pub mod mark;
pub mod memory;
pub mod raw;
pub mod refusal;
pub mod token;

pub use calls::{evaluate, field, lookup, select, table, tokens};
