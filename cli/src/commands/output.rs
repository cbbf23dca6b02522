//! Where a run writes.

use crate::terminal::{escaped, is_same_file, Error};

/// Whether OUT is none of these files, which the run reads: what it was made from would be lost.
pub fn check<'a>(output: &[u8], mut inputs: impl Iterator<Item = &'a [u8]>) -> Result<(), Error> {
    match output != b"-" && inputs.any(|input| is_same_file(input, output)) {
        true => Err(Error::Failed(format!(
            "{}: the run reads this file, so it is not written over",
            escaped(output)
        ))),
        false => Ok(()),
    }
}
