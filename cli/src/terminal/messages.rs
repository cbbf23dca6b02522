//! What a run says beside its answer.

use std::io::{self, Write};

/// Says something on standard error. If that is closed, the status still shows how the run ended.
pub fn say(text: &str) {
    let _ = io::stderr().write_all(text.as_bytes());
}
