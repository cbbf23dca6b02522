//! The limits of the library, as the header has them after `KORZHINAY_`.

/// The bytes of one record of a table.
pub const RECORD_BYTES: usize = 128;

pub const MAX_RECORDS: usize = 512;

/// The most bytes of a name in a record.
pub const MAX_NAME_BYTES: usize = 64;

/// The most bytes of a string in a record, and of one that a `DEFINE` line sets.
pub const MAX_CONTENT_BYTES: usize = 56;

pub const MAX_EXPRESSION_BYTES: usize = 1_024;

pub const MAX_TOKENS: usize = 200;

/// The most parentheses that are open at the same time.
pub const MAX_PARENTHESES: usize = 16;

/// A wide string of 1,021 bytes, each with a zero byte, and two zero bytes.
pub const MAX_FIELD_BYTES: usize = 2_044;

pub const MAX_FILE_BYTES: usize = 65_536;

pub const MAX_LINES: usize = 4_096;

/// The most bytes of a line without its end.
pub const MAX_LINE_BYTES: usize = 1_024;

/// The most groups that are open at the same time.
pub const MAX_GROUPS: usize = 16;

/// The most macros that the `DEFINE` lines of a file set.
pub const MAX_DEFINED: usize = 64;

/// The bytes of stack that have to be left where a call is made.
pub const STACK: usize = 45_056;
