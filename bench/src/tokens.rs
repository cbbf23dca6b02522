//! Times the reading of tokens. The library's arrays are cleared once, before the first round; the oracle makes a vector for each
//! expression.

use std::hint::black_box;

use bindings::limit::MAX_TOKENS;
use oracle::{Scan, Token};

use crate::edition::{DIALECT, EDITION};
use crate::expressions;
use crate::timing::compare;

/// What the library writes: the refusal and the number of tokens, then of each token its code, start, length and value.
struct Lent {
    out: [u64; 3],
    codes: [u8; MAX_TOKENS],
    starts: [u16; MAX_TOKENS],
    lens: [u16; MAX_TOKENS],
    values: [u64; MAX_TOKENS],
}

pub fn time() {
    let small = expressions::small([
        |i| {
            format!(
                "gTokenSpace.PcdValue{} == \"a string of some length\"",
                i % 100
            )
        },
        |i| format!("1 ? {i} : (2 | 3) || L'wide' != 'narrow' # with a comment"),
    ]);
    let (long, mut lent) = (long(), Lent::new());
    small.iter().for_each(|text| lent.check(text));
    lent.check(&long);
    compare(
        "tokens of a small expression (10,000)",
        small.len(),
        || small.iter().for_each(|text| lent.scan(text)),
        || {
            small
                .iter()
                .for_each(|text| drop(black_box(oracle::scan(text.as_bytes(), EDITION))))
        },
    );
    compare(
        "tokens of a long expression (682 bytes)",
        1,
        || lent.scan(&long),
        || drop(black_box(oracle::scan(long.as_bytes(), EDITION))),
    );
}

/// The tokens of the long expression, once.
pub fn once() {
    let mut lent = Lent::new();
    lent.scan(&long());
    assert_eq!(lent.out[0], 0);
}

fn long() -> String {
    "(1 + $(SETTING_0001)) * 0xFFFF ".repeat(22)
}

impl Lent {
    fn new() -> Lent {
        Lent {
            out: [0; 3],
            codes: [0; MAX_TOKENS],
            starts: [0; MAX_TOKENS],
            lens: [0; MAX_TOKENS],
            values: [0; MAX_TOKENS],
        }
    }

    fn scan(&mut self, text: &str) {
        bindings::tokens(
            text.as_bytes(),
            DIALECT,
            &mut self.out,
            &mut self.codes,
            &mut self.starts,
            &mut self.lens,
            &mut self.values,
        );
        black_box(self);
    }

    /// Checks that both sides read the same tokens, without a refusal.
    fn check(&mut self, text: &str) {
        self.scan(text);
        let [refusal, count, _] = self.out;
        let tokens = (0..count as usize).map(|i| Token {
            code: self.codes[i],
            start: self.starts[i].into(),
            len: self.lens[i].into(),
            value: self.values[i],
        });
        let read = Scan {
            tokens: tokens.collect(),
            refusal: None,
        };
        assert!(
            refusal == 0 && read == oracle::scan(text.as_bytes(), EDITION),
            "{text}"
        );
    }
}
