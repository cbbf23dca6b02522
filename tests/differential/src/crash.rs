//! Names the case if the library crashes or does not come back.
//!
//! Without this a crash would end the run and not name the input. The handler reads numbers and noted bytes and calls `write` and
//! `_exit`, nothing else: a signal handler may do so.

use std::ptr;
use std::slice;
use std::sync::atomic::{AtomicPtr, AtomicU64, AtomicUsize, Ordering::SeqCst};

/// In the place of a case number while the fixed inputs run.
pub const FIXED: u64 = u64::MAX;

/// Seconds for 256 inputs, after which the library counts as hung.
const PATIENCE: u32 = 60;

static SUBJECT: Noted = Noted::new();
static SEED: AtomicU64 = AtomicU64::new(0);
static CASE: AtomicU64 = AtomicU64::new(0);
static INPUT: Noted = Noted::new();
static INPUTS: AtomicU64 = AtomicU64::new(0);

extern "C" {
    fn signal(number: i32, handler: extern "C" fn(i32)) -> usize;
    fn alarm(seconds: u32) -> u32;
    fn write(file: i32, bytes: *const u8, len: usize) -> isize;
    fn _exit(code: i32) -> !;
}

/// Bytes that the handler can read: those of a slice that is still borrowed, or none.
struct Noted {
    start: AtomicPtr<u8>,
    len: AtomicUsize,
}

impl Noted {
    const fn new() -> Noted {
        Noted {
            start: AtomicPtr::new(ptr::null_mut()),
            len: AtomicUsize::new(0),
        }
    }

    /// In this order, so that a signal at any point finds no bytes or all of them.
    fn set(&self, bytes: &[u8]) {
        self.clear();
        self.start.store(bytes.as_ptr().cast_mut(), SeqCst);
        self.len.store(bytes.len(), SeqCst);
    }

    fn clear(&self) {
        self.len.store(0, SeqCst);
    }

    /// The bytes that were noted last.
    ///
    /// # Safety
    ///
    /// They are still borrowed for reading, unless they were cleared.
    unsafe fn bytes(&self) -> &[u8] {
        match self.len.load(SeqCst) {
            0 => &[],
            // SAFETY: with a length above 0 the start is that of a slice of this length, by the order in `set`, and it is still
            // borrowed, by this function's own terms.
            len => unsafe { slice::from_raw_parts(self.start.load(SeqCst), len) },
        }
    }
}

pub fn install(seed: u64) {
    SEED.store(seed, SeqCst);
    // ILL, ABRT, BUS, FPE, SEGV and ALRM, as Linux numbers them.
    for number in [4, 6, 7, 8, 11, 14] {
        // SAFETY: `report` has the type of a handler, lives as long as the program, and does only what a handler may.
        unsafe { signal(number, report) };
    }
}

/// Notes which case comes next.
pub fn case(subject: &'static str, case: u64) {
    SUBJECT.set(subject.as_bytes());
    CASE.store(case, SeqCst);
}

/// Makes a call of the library; if it crashes or hangs, this input is named.
pub fn watched<T>(input: &[u8], call: impl FnOnce() -> T) -> T {
    /// Ends the note before the input's borrow ends, after a panic too.
    struct End;

    impl Drop for End {
        fn drop(&mut self) {
            INPUT.clear();
        }
    }

    let _end = End;
    INPUT.set(input);
    // Not each time, since it is a call of the kernel.
    if INPUTS.fetch_add(1, SeqCst).is_multiple_of(256) {
        // SAFETY: `alarm` sets a timer and touches no memory of this process.
        unsafe { alarm(PATIENCE) };
    }
    call()
}

extern "C" fn report(signal: i32) {
    say(b"\nthe library crashed or hung, signal ");
    say_number(signal as u64);
    say(b", subject ");
    // SAFETY: a subject's name is static.
    say(unsafe { SUBJECT.bytes() });
    say(b", seed ");
    say_number(SEED.load(SeqCst));
    say(b", case ");
    match CASE.load(SeqCst) {
        FIXED => say(b"fixed"),
        case => say_number(case),
    }
    say(b", input in hex: ");
    // SAFETY: `watched` borrows the input while it is noted, and clears it at its end.
    for byte in unsafe { INPUT.bytes() } {
        let digits = b"0123456789abcdef";
        say(&[
            digits[usize::from(byte >> 4)],
            digits[usize::from(byte & 15)],
        ]);
    }
    say(b"\n");
    // SAFETY: `_exit` ends the process and returns to nothing.
    unsafe { _exit(1) }
}

/// Writes to standard error.
fn say(text: &[u8]) {
    // SAFETY: `write` reads the bytes of a slice by its length, and a signal handler may call it.
    unsafe { write(2, text.as_ptr(), text.len()) };
}

fn say_number(number: u64) {
    if number > 9 {
        say_number(number / 10);
    }
    say(&[b'0' + (number % 10) as u8]);
}
