//! Memory that is lent to the library, watched on both sides.

use std::cell::Cell;
use std::marker::PhantomData;
use std::ptr;

/// Elements on each side of lent memory that the library has to leave alone.
const GUARD: usize = 16;

/// Bytes that would continue most tokens, or end them, if they were read:
/// a library that reads beyond its input gives another answer.
const NEIGHBOURS: &[u8] = b"=A0)\"<.x1|_'&L>(!\x00#a";

/// A pointer and a length as they go to the library: valid for reads of this many bytes as long as it lives.
#[derive(Clone, Copy)]
pub struct Input<'a> {
    start: *const u8,
    len: usize,
    lent: PhantomData<&'a Cell<u8>>,
}

impl Input<'_> {
    /// Inputs of no bytes, of which not even the address may matter.
    pub fn empty_ones() -> [Input<'static>; 3] {
        let last = usize::MAX as *const u8;
        [ptr::null(), ptr::dangling(), last].map(|start| Input {
            start,
            len: 0,
            lent: PhantomData,
        })
    }

    pub fn start(self) -> *const u8 {
        self.start
    }

    pub fn len(self) -> usize {
        self.len
    }
}

/// Bytes that the library may only read, between neighbours that it may not read.
pub struct Shown {
    /// Cells, so that a library that writes to them is seen by `check`: the compiler does not take them for constant.
    cells: Vec<Cell<u8>>,
    untouched: Vec<u8>,
    before: usize,
    len: usize,
}

impl Shown {
    /// `shift` changes the neighbours and the alignment.
    pub fn new(bytes: &[u8], shift: u64) -> Shown {
        let shift = shift as usize % NEIGHBOURS.len();
        let neighbours = || NEIGHBOURS.iter().cycle().skip(shift);
        let before = GUARD + shift;
        let mut untouched = Vec::with_capacity(before + bytes.len() + GUARD);
        untouched.extend(neighbours().take(before));
        untouched.extend(bytes);
        untouched.extend(neighbours().take(GUARD));
        Shown {
            cells: untouched.iter().copied().map(Cell::new).collect(),
            untouched,
            before,
            len: bytes.len(),
        }
    }

    pub fn input(&self) -> Input<'_> {
        Input {
            start: self.cells[self.before..][..self.len].as_ptr().cast(),
            len: self.len,
            lent: PhantomData,
        }
    }

    /// Whether the library left the bytes and their neighbours alone.
    pub fn check(&self, what: &str) -> Result<(), String> {
        if self
            .cells
            .iter()
            .map(Cell::get)
            .eq(self.untouched.iter().copied())
        {
            Ok(())
        } else {
            Err(format!("the library wrote to the {what} or beside it"))
        }
    }
}

/// A buffer that the library may write to, filled with `pattern` before.
#[derive(PartialEq)]
pub struct Buffer<T> {
    cells: Vec<T>,
    pattern: T,
}

impl<T: Copy + PartialEq> Buffer<T> {
    pub fn new(len: usize, pattern: T) -> Buffer<T> {
        Buffer {
            cells: vec![pattern; len + 2 * GUARD],
            pattern,
        }
    }

    /// The first of the cells that are lent: valid for writes of `len` elements, and of the guard after them.
    pub fn start(&mut self) -> *mut T {
        self.cells[GUARD..].as_mut_ptr()
    }

    /// The buffer as the library left it.
    pub fn cells(&self) -> &[T] {
        &self.cells[GUARD..self.cells.len() - GUARD]
    }

    pub fn pattern(&self) -> T {
        self.pattern
    }

    /// Whether the library stayed inside the buffer.
    pub fn check(&self, what: &str) -> Result<(), String> {
        let (front, back) = (
            &self.cells[..GUARD],
            &self.cells[self.cells.len() - GUARD..],
        );
        if front.iter().chain(back).all(|cell| *cell == self.pattern) {
            Ok(())
        } else {
            Err(format!("the library wrote beside the {what}"))
        }
    }
}
