//! Refusals, as the calls give them.

/// A refusal number and its place.
pub struct Refusal {
    pub number: u8,
    /// The line of a file, counted from 1; 0 if the refusal is of no line.
    pub line: usize,
    /// Counted in bytes from the start of the expression or of the line; 0 if the refusal has no place.
    pub offset: usize,
}

impl Refusal {
    /// The refusal of an expression by itself or of a field.
    pub fn of_expression(number: u8, offset: u64) -> Refusal {
        Refusal {
            number,
            line: 0,
            offset: offset as usize,
        }
    }
}
