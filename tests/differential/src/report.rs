//! What is reported: counts of answers, and a mismatch.

use std::fmt::Write;

use crate::definitions::Definitions;

/// A case on which the two implementations differ.
pub struct Mismatch {
    pub what: String,
    pub input: String,
    pub oracle: String,
    pub library: String,
}

/// How often each answer was met; 0 means an accepted input.
pub struct Tally {
    answers: [u64; 256],
    /// Those of them with an offset other than 0.
    placed: [u64; 256],
    /// Further comparisons that have no refusal, such as lookups.
    pub extra: u64,
    /// Accepted files with a bar outside parentheses in a condition that is read.
    pub with_bars: u64,
    /// Expressions in which the old edition reads a bare word, by its answer; and
    /// files that it accepts with one in a condition that is read.
    pub with_bare_words: [u64; 256],
    /// Files that the old edition accepts with `$(NAME)` after an `!ifdef` or
    /// `!ifndef` that is read.
    pub with_brackets: u64,
    pub definitions: Definitions,
}

impl Tally {
    pub fn new() -> Tally {
        Tally {
            answers: [0; 256],
            placed: [0; 256],
            extra: 0,
            with_bars: 0,
            with_bare_words: [0; 256],
            with_brackets: 0,
            definitions: Definitions::new(),
        }
    }

    pub fn add(&mut self, answer: u8, offset: u64) {
        self.answers[usize::from(answer)] += 1;
        self.placed[usize::from(answer)] += u64::from(offset != 0);
    }

    /// What matters to some subjects, and how often it was met.
    pub fn besides(&self) -> impl Iterator<Item = (u64, &'static str)> {
        let [accepted, refused @ ..] = self.with_bare_words;
        let besides = [
            (
                self.with_bars,
                "accepted with a bar outside parentheses in a read condition",
            ),
            (accepted, "accepted with a bare word"),
            (refused.iter().sum(), "refused after a bare word"),
            (
                self.with_brackets,
                "accepted with `$(NAME)` after `!ifdef` or `!ifndef`",
            ),
        ];
        besides.into_iter().chain(self.definitions.besides())
    }

    pub fn met(&self, answer: u8) -> u64 {
        self.answers[usize::from(answer)]
    }

    pub fn met_with_offset(&self, answer: u8) -> u64 {
        self.placed[usize::from(answer)]
    }

    pub fn total(&self) -> u64 {
        self.answers.iter().sum()
    }
}

/// The bytes as text, with everything unprintable escaped. Long runs of zero
/// bytes are shortened, since most of a table is padding.
pub fn escaped(bytes: &[u8]) -> String {
    let mut out = String::new();
    let mut rest = bytes;
    while let Some(&byte) = rest.first() {
        let zeros = rest.iter().take_while(|&&byte| byte == 0).count();
        if zeros > 4 {
            let _ = write!(out, "<{zeros} zero bytes>");
            rest = &rest[zeros..];
        } else {
            let _ = write!(out, "{}", byte.escape_ascii());
            rest = &rest[1..];
        }
    }
    out
}
