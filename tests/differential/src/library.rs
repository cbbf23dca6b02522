//! The calls of the library under test, with watched memory. They use the C functions, since some inputs are null or dangling.

use bindings::raw::{
    korzhinay_evaluate, korzhinay_field, korzhinay_lookup, korzhinay_select, korzhinay_table,
    korzhinay_tokens,
};
use oracle::tokens::MAX_TOKENS;

use crate::lent::{Buffer, Input};

/// 0 for a well formed table, else its refusal number.
pub fn table(table: Input) -> u8 {
    // SAFETY: an input is valid for reads of its length.
    unsafe { korzhinay_table(table.start(), table.len()) }
}

/// 0 or the refusal number, and kind, number or start, and length of a setting.
pub fn lookup(table: Input, name: Input, pattern: u64) -> Result<(u8, [u64; 3]), String> {
    let mut out = Buffer::new(3, pattern);
    // SAFETY: inputs are valid for reads of their lengths; `out` has 3 numbers of its own.
    let refusal = unsafe {
        korzhinay_lookup(
            table.start(),
            table.len(),
            name.start(),
            name.len(),
            out.start(),
        )
    };
    out.check("lookup's three numbers")?;
    Ok((refusal, [out.cells()[0], out.cells()[1], out.cells()[2]]))
}

/// Everything that a scan leaves in the caller's memory.
#[derive(PartialEq)]
pub struct Tokens {
    pub refusal: u64,
    pub count: u64,
    pub offset: u64,
    pub codes: Buffer<u8>,
    pub starts: Buffer<u16>,
    pub lens: Buffer<u16>,
    pub values: Buffer<u64>,
}

impl Tokens {
    /// Code, start, length and value in one entry.
    pub fn token(&self, place: usize) -> (u8, u16, u16, u64) {
        (
            self.codes.cells()[place],
            self.starts.cells()[place],
            self.lens.cells()[place],
            self.values.cells()[place],
        )
    }
}

pub fn tokens(expr: Input, dialect: u8, pattern: u64) -> Result<Tokens, String> {
    let mut out = Buffer::new(3, pattern);
    let mut codes = Buffer::new(MAX_TOKENS, pattern as u8);
    let mut starts = Buffer::new(MAX_TOKENS, pattern as u16);
    let mut lens = Buffer::new(MAX_TOKENS, !pattern as u16);
    let mut values = Buffer::new(MAX_TOKENS, !pattern);
    // SAFETY: the input is valid for reads of its length; `out` has 3 numbers and the others 200 entries, each of its own.
    unsafe {
        korzhinay_tokens(
            expr.start(),
            expr.len(),
            dialect,
            out.start(),
            codes.start(),
            starts.start(),
            lens.start(),
            values.start(),
        )
    };
    out.check("scan's three numbers")?;
    codes.check("codes")?;
    starts.check("starts")?;
    lens.check("lengths")?;
    values.check("values")?;
    Ok(Tokens {
        refusal: out.cells()[0],
        count: out.cells()[1],
        offset: out.cells()[2],
        codes,
        starts,
        lens,
        values,
    })
}

/// 0 or the refusal number, and the seven numbers of an answer.
pub fn evaluate(
    expr: Input,
    table: Input,
    dialect: u8,
    pattern: u64,
) -> Result<(u8, [u64; 7]), String> {
    let mut out = Buffer::new(7, pattern);
    // SAFETY: inputs are valid for reads of their lengths; `out` has 7 numbers of its own.
    let refusal = unsafe {
        korzhinay_evaluate(
            expr.start(),
            expr.len(),
            table.start(),
            table.len(),
            dialect,
            out.start(),
        )
    };
    out.check("answer's seven numbers")?;
    let mut answer = [0; 7];
    answer.copy_from_slice(out.cells());
    Ok((refusal, answer))
}

/// Everything that a field's call leaves in the caller's memory.
#[derive(Debug, PartialEq)]
pub struct Field {
    pub refusal: u8,
    pub length: u64,
    pub offset: u64,
    pub buffer: Vec<u8>,
}

/// A buffer of `room` bytes is lent, filled with the pattern's last byte.
pub fn field(
    expr: Input,
    table: Input,
    datum: u8,
    dialect: u8,
    room: usize,
    pattern: u64,
) -> Result<Field, String> {
    let mut buffer = Buffer::new(room, pattern as u8);
    let mut out = Buffer::new(2, pattern);
    // SAFETY: inputs are valid for reads of their lengths; the buffer has `room` bytes and `out` two numbers, each of its own.
    let refusal = unsafe {
        korzhinay_field(
            buffer.start(),
            room,
            expr.start(),
            expr.len(),
            table.start(),
            table.len(),
            datum,
            dialect,
            out.start(),
        )
    };
    buffer.check("field's buffer")?;
    out.check("field's two numbers")?;
    Ok(Field {
        refusal,
        length: out.cells()[0],
        offset: out.cells()[1],
        buffer: buffer.cells().to_vec(),
    })
}

/// Everything that a selection leaves in the caller's memory.
#[derive(Debug, PartialEq)]
pub struct Selected {
    pub refusal: u8,
    pub line: u64,
    pub lines: u64,
    pub count: u64,
    pub offset: u64,
    pub marks: Vec<u8>,
}

/// Marks of `room` bytes are lent, filled with the pattern's last byte.
pub fn select(
    file: Input,
    table: Input,
    dialect: u8,
    room: usize,
    pattern: u64,
) -> Result<Selected, String> {
    let mut marks = Buffer::new(room, pattern as u8);
    // SAFETY: the marks have `room` bytes of their own.
    let selected = unsafe { select_into(marks.start(), room, file, table, dialect, pattern)? };
    marks.check("marks")?;
    Ok(Selected {
        marks: marks.cells().to_vec(),
        ..selected
    })
}

/// With no marks at all, at any address.
pub fn select_without_marks(
    nowhere: *const u8,
    file: Input,
    table: Input,
    dialect: u8,
    pattern: u64,
) -> Result<Selected, String> {
    // SAFETY: any pointer is valid for writes of 0 bytes.
    unsafe { select_into(nowhere.cast_mut(), 0, file, table, dialect, pattern) }
}

/// A selection whose marks are not looked at.
///
/// # Safety
///
/// `marks` is valid for writes of `room` bytes, which overlap neither the file nor the table.
unsafe fn select_into(
    marks: *mut u8,
    room: usize,
    file: Input,
    table: Input,
    dialect: u8,
    pattern: u64,
) -> Result<Selected, String> {
    let mut out = Buffer::new(4, pattern);
    // SAFETY: inputs are valid for reads of their lengths, and `out` has 4 numbers of its own; the marks are as this function's
    // terms say.
    let refusal = unsafe {
        korzhinay_select(
            marks,
            room,
            file.start(),
            file.len(),
            table.start(),
            table.len(),
            dialect,
            out.start(),
        )
    };
    out.check("selection's four numbers")?;
    let [line, lines, count, offset] = [0, 1, 2, 3].map(|place| out.cells()[place]);
    Ok(Selected {
        refusal,
        line,
        lines,
        count,
        offset,
        marks: Vec::new(),
    })
}
