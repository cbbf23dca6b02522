//! Selections of the lines of files.

use super::limit::MAX_LINES;
use super::{Refusal, Terms};

/// The lines of a file that was accepted.
pub struct Selection {
    /// One mark for each line.
    pub marks: Vec<u8>,
    /// How many operators were applied.
    pub operators: u64,
}

/// The selection of the lines of a file.
pub fn select(file: &[u8], terms: Terms) -> Result<Selection, Refusal> {
    let Terms { table, edition } = terms;
    let mut marks = vec![0; MAX_LINES];
    let mut out = [0; 4];
    let number = bindings::select(&mut marks, file, table, edition.dialect(), &mut out);
    let [line, lines, operators, offset] = out;
    if number != 0 {
        return Err(Refusal {
            number,
            line: line as usize,
            offset: offset as usize,
        });
    }
    marks.truncate(lines as usize);
    Ok(Selection { marks, operators })
}
