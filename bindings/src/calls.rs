//! The C functions with slices and references for pointers. A slice is valid for its length, an array for its own, and what is
//! borrowed to be written overlaps nothing else: that is all that the C functions need, the stack apart, whose end Rust guards. A dialect
//! is one of [`crate::edition`].

use crate::limit::MAX_TOKENS;
use crate::raw;

/// Whether a table is well formed: 0 or the refusal number.
#[inline]
pub fn table(table: &[u8]) -> u8 {
    // SAFETY: the call reads the `table.len()` bytes of a slice and writes nothing.
    unsafe { raw::korzhinay_table(table.as_ptr(), table.len()) }
}

/// The setting of a name in a table: 0 or the refusal number, and kind, number or start, and length.
#[inline]
pub fn lookup(table: &[u8], name: &[u8], out: &mut [u64; 3]) -> u8 {
    // SAFETY: the call reads two slices by their lengths and writes the 3 numbers of `out`, which is borrowed alone.
    unsafe {
        raw::korzhinay_lookup(
            table.as_ptr(),
            table.len(),
            name.as_ptr(),
            name.len(),
            out.as_mut_ptr(),
        )
    }
}

/// The tokens of an expression: the refusal number or 0, how many tokens there are and the refusal's offset; and the code, start,
/// length and value of each token.
#[inline]
pub fn tokens(
    expression: &[u8],
    dialect: u8,
    out: &mut [u64; 3],
    codes: &mut [u8; MAX_TOKENS],
    starts: &mut [u16; MAX_TOKENS],
    lens: &mut [u16; MAX_TOKENS],
    values: &mut [u64; MAX_TOKENS],
) {
    // SAFETY: the call reads a slice by its length, and writes 3 numbers and within four arrays of 200 entries; each of these is
    // borrowed alone.
    unsafe {
        raw::korzhinay_tokens(
            expression.as_ptr(),
            expression.len(),
            dialect,
            out.as_mut_ptr(),
            codes.as_mut_ptr(),
            starts.as_mut_ptr(),
            lens.as_mut_ptr(),
            values.as_mut_ptr(),
        )
    }
}

/// The value of an expression under a table: 0 or the refusal number, and kind, number, count of operators, memory, start, length and
/// the refusal's offset.
#[inline]
pub fn evaluate(expression: &[u8], table: &[u8], dialect: u8, out: &mut [u64; 7]) -> u8 {
    // SAFETY: the call reads two slices by their lengths and writes the 7 numbers of `out`, which is borrowed alone.
    unsafe {
        raw::korzhinay_evaluate(
            expression.as_ptr(),
            expression.len(),
            table.as_ptr(),
            table.len(),
            dialect,
            out.as_mut_ptr(),
        )
    }
}

/// The bytes of a data field, at the front of the buffer: 0 or the refusal number, and how many bytes they are and the refusal's offset.
#[inline]
pub fn field(
    buffer: &mut [u8],
    expression: &[u8],
    table: &[u8],
    datum: u8,
    dialect: u8,
    out: &mut [u64; 2],
) -> u8 {
    // SAFETY: the call reads two slices by their lengths, and writes within the buffer by its length and the 2 numbers of `out`; both
    // are borrowed alone.
    unsafe {
        raw::korzhinay_field(
            buffer.as_mut_ptr(),
            buffer.len(),
            expression.as_ptr(),
            expression.len(),
            table.as_ptr(),
            table.len(),
            datum,
            dialect,
            out.as_mut_ptr(),
        )
    }
}

/// The marks of the lines of a file: 0 or the refusal number, and the refusal's line, the number of lines, the count of operators and
/// the refusal's offset in its line.
#[inline]
pub fn select(marks: &mut [u8], file: &[u8], table: &[u8], dialect: u8, out: &mut [u64; 4]) -> u8 {
    // SAFETY: the call reads two slices by their lengths, and writes within the marks by their length and the 4 numbers of `out`;
    // both are borrowed alone.
    unsafe {
        raw::korzhinay_select(
            marks.as_mut_ptr(),
            marks.len(),
            file.as_ptr(),
            file.len(),
            table.as_ptr(),
            table.len(),
            dialect,
            out.as_mut_ptr(),
        )
    }
}
