//! Each mark is what the library gives to such a line.

use bindings::mark::*;
use bindings::{edition, refusal, select};

/// A selection with one mark more than the file has lines: the refusal, and the marks.
fn marks<const LEN: usize>(file: &[u8]) -> (u8, [u8; LEN]) {
    let mut marks = [7; LEN];
    let refusal = select(&mut marks, file, b"", edition::NEW, &mut [0; 4]);
    (refusal, marks)
}

#[test]
fn accepted() {
    let file = b"!if 0\nx\nDEFINE\n!if @\n!endif\n!else\nDEFINE A = 1\nx\n!endif\n";
    let wanted = [
        NOT_TAKEN, DROPPED, DROPPED, UNREAD, UNREAD, TAKEN, DEFINE, KEPT, END, 7,
    ];
    assert_eq!(marks(file), (0, wanted));
}

#[test]
fn refused() {
    let wanted = (refusal::TEXT_MALFORMED, [REFUSED; 3]);
    assert_eq!(marks(b"DEFINE A = 1\nDEFINE\n"), wanted);
}
