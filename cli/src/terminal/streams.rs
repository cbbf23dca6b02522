//! Standard input and output as files. Rust's own handles take a closed standard input for an empty one, and a closed standard output
//! for one that accepts everything, without an error.

use std::fs::File;
use std::io::{self, Error};
use std::os::fd::AsFd;
use std::sync::atomic::{AtomicBool, Ordering};

const INPUT: usize = 0;
const OUTPUT: usize = 1;

/// Whether a stream was closed when the process started. Rust's start-up opens /dev/null in its place, so this is found out before.
static CLOSED: [AtomicBool; 2] = [AtomicBool::new(false), AtomicBool::new(false)];

extern "C" {
    fn fcntl(descriptor: i32, command: i32, ...) -> i32;
}

/// As in fcntl.h and errno.h.
const GET_FLAGS: i32 = 1;
const BAD_DESCRIPTOR: i32 = 9;

extern "C" fn note_closed() {
    for (descriptor, closed) in (0..).zip(&CLOSED) {
        // SAFETY: fcntl with F_GETFD takes no third argument, reads and writes no memory of this process, and answers -1 for a
        // descriptor that is not open.
        let flags = unsafe { fcntl(descriptor, GET_FLAGS) };
        closed.store(flags == -1, Ordering::Relaxed);
    }
}

/// The C library calls the functions of this section before `main`. `note_closed` uses nothing that Rust's start-up prepares, and it
/// does not unwind.
#[used]
#[link_section = ".init_array"]
static NOTE_CLOSED: extern "C" fn() = note_closed;

pub fn input() -> io::Result<File> {
    file(INPUT, &io::stdin())
}

pub fn output() -> io::Result<File> {
    file(OUTPUT, &io::stdout())
}

fn file(stream: usize, handle: &impl AsFd) -> io::Result<File> {
    if CLOSED[stream].load(Ordering::Relaxed) {
        return Err(Error::from_raw_os_error(BAD_DESCRIPTOR));
    }
    handle.as_fd().try_clone_to_owned().map(File::from)
}
