//! Signals that have to wait.

/// `sigset_t` of signal.h, a bit for each of 1,024 signals.
#[repr(C)]
struct SignalSet([u64; 16]);

extern "C" {
    fn sigfillset(set: *mut SignalSet) -> i32;
    fn sigprocmask(how: i32, set: *const SignalSet, old: *mut SignalSet) -> i32;
}

/// SIG_SETMASK, as in signal.h.
const SET_MASK: i32 = 2;

/// As long as it lives, no signal ends the run, except for those that nobody can hold back; the others come at its end.
pub struct HeldSignals {
    before: SignalSet,
}

impl HeldSignals {
    pub fn new() -> HeldSignals {
        let mut all = SignalSet([0; 16]);
        let mut before = SignalSet([0; 16]);
        // SAFETY: the sets have the size that the C library gives them. sigfillset writes one; sigprocmask reads it and writes the other.
        unsafe {
            sigfillset(&mut all);
            sigprocmask(SET_MASK, &all, &mut before);
        }
        HeldSignals { before }
    }
}

impl Drop for HeldSignals {
    fn drop(&mut self) {
        // SAFETY: sigprocmask reads a set that it has written, and may be given no place for the old one.
        unsafe {
            sigprocmask(SET_MASK, &self.before, std::ptr::null_mut());
        }
    }
}
