//! Description files, as far as the command looks into them itself: for notes, names and messages, never for a decision. What a line is,
//! whether it is read, what a token is and what is set, the library says.

mod bare;
mod bytes;
mod define;
mod directive;
mod expression;
mod hidden;
mod mentions;
mod plain;
mod quoted;
mod runs;

pub use bare::{bare_words, bare_words_of_line};
pub use bytes::{oddities, Oddity, Oddness, BYTE_ORDER_MARK};
pub use define::{define, Define, Slip};
pub use directive::{directive, first_byte};
pub use expression::expression_of_line;
pub use hidden::{hidden, Hidden};
pub use mentions::{is_macro_name, macro_name, mentions, Mention, Sort};
pub use plain::{plain, Plain};
pub use quoted::quoted_macros;
pub use runs::split_run;
