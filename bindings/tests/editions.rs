//! The dialect reaches each call that takes one: the old edition takes what the new one refuses, and bit 0 alone decides.

use bindings::{datum, edition, evaluate, field, limit, refusal, select, token, tokens};

const COMPARISON: &[u8] = b"'SPAR' == SPAR";
const FILE: &[u8] = b"!ifdef $(SPAR)\n!endif\n";

/// Each edition, with every other bit clear and set.
fn dialects(edition: u8) -> [u8; 2] {
    [edition, edition | 0xfe]
}

/// The refusal of the tokens, how many are read, and the code of the last one.
fn read(dialect: u8) -> (u64, u64, u8) {
    const MAX: usize = limit::MAX_TOKENS;
    let (mut out, mut codes) = ([0; 3], [0; MAX]);
    tokens(
        COMPARISON,
        dialect,
        &mut out,
        &mut codes,
        &mut [0; MAX],
        &mut [0; MAX],
        &mut [0; MAX],
    );
    (out[0], out[1], codes[out[1] as usize - 1])
}

/// The refusals of the calls that answer one.
fn refusals(dialect: u8) -> [u8; 3] {
    let mut buffer = [0; limit::MAX_FIELD_BYTES];
    [
        evaluate(COMPARISON, b"", dialect, &mut [0; 7]),
        field(
            &mut buffer,
            COMPARISON,
            b"",
            datum::UINT8,
            dialect,
            &mut [0; 2],
        ),
        select(&mut [0; 2], FILE, b"", dialect, &mut [0; 4]),
    ]
}

#[test]
fn the_old_edition_takes_both() {
    for dialect in dialects(edition::OLD) {
        assert_eq!(read(dialect), (0, 3, token::BARE));
        assert_eq!(refusals(dialect), [0, 0, 0]);
    }
}

#[test]
fn the_new_edition_refuses_both() {
    let (bad, malformed) = (refusal::TOKEN_BAD, refusal::TEXT_MALFORMED);
    for dialect in dialects(edition::NEW) {
        assert_eq!(read(dialect), (bad.into(), 2, token::EQUAL));
        assert_eq!(refusals(dialect), [bad, bad, malformed]);
    }
}
