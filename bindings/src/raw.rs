//! The C functions, as include/korzhinay.h declares them.
//!
//! # Safety
//!
//! Each function answers for any bytes. A caller has to see to three things:
//!
//! - Each pointer is valid for the length that comes with it, or for the one that is named at the function: `const` ones for reads,
//!   `mut` ones for writes. A pointer whose length is 0 may be null or dangling.
//! - What a call writes overlaps neither what it reads nor anything else that it writes.
//! - As many bytes of stack are left as [`crate::limit::STACK`] says.
//!
//! No function keeps a pointer or a state, so calls may run at the same time.

extern "C" {
    /// The table has `table_len` bytes.
    pub fn korzhinay_table(table: *const u8, table_len: usize) -> u8;

    /// The table has `table_len` bytes, the name `name_len`; `out` has 3 numbers.
    pub fn korzhinay_lookup(
        table: *const u8,
        table_len: usize,
        name: *const u8,
        name_len: usize,
        out: *mut u64,
    ) -> u8;

    /// The expression has `expression_len` bytes; `out` has 3 numbers, each of the other arrays 200 entries.
    pub fn korzhinay_tokens(
        expression: *const u8,
        expression_len: usize,
        dialect: u8,
        out: *mut u64,
        codes: *mut u8,
        starts: *mut u16,
        lens: *mut u16,
        values: *mut u64,
    );

    /// The expression has `expression_len` bytes, the table `table_len`; `out` has 7 numbers.
    pub fn korzhinay_evaluate(
        expression: *const u8,
        expression_len: usize,
        table: *const u8,
        table_len: usize,
        dialect: u8,
        out: *mut u64,
    ) -> u8;

    /// The buffer has `buffer_len` bytes, the expression `expression_len`, the table `table_len`; `out` has 2 numbers.
    pub fn korzhinay_field(
        buffer: *mut u8,
        buffer_len: usize,
        expression: *const u8,
        expression_len: usize,
        table: *const u8,
        table_len: usize,
        datum: u8,
        dialect: u8,
        out: *mut u64,
    ) -> u8;

    /// There are `marks_len` marks, a byte each; the file has `file_len` bytes, the table `table_len`; `out` has 4 numbers.
    pub fn korzhinay_select(
        marks: *mut u8,
        marks_len: usize,
        file: *const u8,
        file_len: usize,
        table: *const u8,
        table_len: usize,
        dialect: u8,
        out: *mut u64,
    ) -> u8;
}
