//! Tokens of an expression: refusals 2 to 6 with their offsets, and what was
//! read before them.

use oracle::tokens::{Scan, MAX_TOKENS};
use oracle::Edition;

use crate::crash;
use crate::editions;
use crate::gen::{bare_words, expressions as gen};
use crate::lent::{Input, Shown};
use crate::library;
use crate::prng::Prng;
use crate::report::{escaped, Mismatch, Tally};
use crate::subject::Subject;

pub struct Tokens;

impl Subject for Tokens {
    fn name(&self) -> &'static str {
        "tokens"
    }

    fn units(&self) -> (&'static str, &'static str) {
        ("answers", "")
    }

    fn needed(&self) -> &'static [u8] {
        &[2, 3, 4, 5, 6]
    }

    fn lacks(&self, random: &Tally) -> Option<String> {
        editions::lack_in_expressions(random, 3..=6)
    }

    fn fixed(&self, tally: &mut Tally) -> Result<(), Mismatch> {
        for (index, input) in Input::empty_ones().into_iter().enumerate() {
            compare_at(input, b"", index as u64, tally)?;
        }
        // With every choice of neighbours, in case one of them is read.
        for expr in gen::corners() {
            for pattern in 0..32 {
                compare(&expr, pattern, tally)?;
            }
        }
        for first in 0..=255 {
            compare(&[first], u64::from(first), tally)?;
            for second in 0..=255 {
                compare(&[first, second], u64::from(first ^ second), tally)?;
            }
        }
        let alphabet = b" #AZLa_09x.$()\"'<>=!&|\xe9@\r";
        for &first in alphabet {
            for &second in alphabet {
                for &third in alphabet {
                    compare(&[first, second, third], u64::from(second), tally)?;
                }
            }
        }
        for first in 0..=255 {
            for second in 0..=255 {
                compare(&[b'=', b'=', first, second], u64::from(first), tally)?;
            }
        }
        for expr in bare_words::all() {
            compare(&expr, expr.len() as u64, tally)?;
        }
        for pattern in editions::all_patterns() {
            compare(b"'a' == foo AND foo", pattern, tally)?;
        }
        Ok(())
    }

    fn case(&self, rng: &mut Prng, tally: &mut Tally) -> Result<(), Mismatch> {
        let expr = gen::any(rng);
        compare(&expr, rng.next(), tally)
    }
}

fn compare(expr: &[u8], pattern: u64, tally: &mut Tally) -> Result<(), Mismatch> {
    let shown = Shown::new(expr, pattern);
    compare_at(shown.input(), expr, pattern, tally)?;
    shown.check("expression").map_err(|what| Mismatch {
        what,
        input: escaped(expr),
        oracle: "does not write there".to_string(),
        library: "does".to_string(),
    })
}

/// Compares the scans of `expr`, which the library finds at `input`, in both
/// editions.
fn compare_at(input: Input, expr: &[u8], pattern: u64, tally: &mut Tally) -> Result<(), Mismatch> {
    let [new, old] = editions::both(pattern, |edition| {
        compare_in(edition, input, expr, pattern, tally)
    })?;
    editions::count_expression(expr, new.refusal as u8, old.refusal as u8, tally);
    match disagreement(&new, &old) {
        None => Ok(()),
        Some(what) => {
            let (input, new) = (escaped(expr), write_library(&new));
            Err(editions::mismatch(what, input, new, write_library(&old)))
        }
    }
}

/// What the two editions may not differ in, if they do.
fn disagreement(new: &library::Tokens, old: &library::Tokens) -> Option<&'static str> {
    let refusal = new.refusal as u8;
    if !editions::agree(new, old, refusal, editions::OF_AN_EXPRESSION) {
        return Some("another scan");
    }
    // Up to where the new edition stops, both read the same.
    let read = new.count as usize;
    let same = |place| new.token(place) == old.token(place);
    if old.count < new.count || !(0..read).all(same) {
        return Some("other tokens");
    }
    // Only 6 can be at a token that both have read.
    (matches!(old.refusal, 3..=5) && old.offset < new.offset).then_some("an earlier refusal")
}

/// Compares the scan in one edition, and gives the library's.
fn compare_in(
    edition: Edition,
    input: Input,
    expr: &[u8],
    pattern: u64,
    tally: &mut Tally,
) -> Result<library::Tokens, Mismatch> {
    let scan = oracle::scan(expr, edition);
    let (refusal, offset) = refusal(&scan);
    tally.add(refusal, offset);
    let dialect = editions::dialect(edition, pattern);
    let given = crash::watched(expr, || library::tokens(input, dialect, pattern));
    let (what, library) = match given {
        Err(what) => (what, "does".to_string()),
        Ok(tokens) => match difference(&scan, &tokens) {
            None => return Ok(tokens),
            Some(what) => (what, write_library(&tokens)),
        },
    };
    Err(Mismatch {
        what,
        input: escaped(expr),
        oracle: write_oracle(&scan),
        library,
    })
}

/// The oracle's refusal and its offset, 0 without one.
fn refusal(scan: &Scan) -> (u8, u64) {
    scan.refusal
        .map_or((0, 0), |refusal| (refusal.number, refusal.offset() as u64))
}

/// The first thing in which the two scans differ, if any.
fn difference(scan: &Scan, tokens: &library::Tokens) -> Option<String> {
    let (refusal, offset) = refusal(scan);
    if tokens.refusal != u64::from(refusal) {
        return Some("refusal".to_string());
    }
    if tokens.offset != offset {
        return Some("offset of the refusal".to_string());
    }
    if tokens.count != scan.tokens.len() as u64 {
        return Some("number of tokens".to_string());
    }
    for place in 0..MAX_TOKENS {
        // Past the tokens the arrays have to be as they were lent.
        let (code, start, len, value) = match scan.tokens.get(place) {
            Some(token) => (
                token.code,
                token.start as u16,
                token.len as u16,
                token.value,
            ),
            None => (
                tokens.codes.pattern(),
                tokens.starts.pattern(),
                tokens.lens.pattern(),
                tokens.values.pattern(),
            ),
        };
        let given = tokens.token(place);
        let wrong = if given.0 != code {
            "code"
        } else if given.1 != start {
            "start"
        } else if given.2 != len {
            "length"
        } else if given.3 != value {
            "value"
        } else {
            continue;
        };
        return Some(if place < scan.tokens.len() {
            format!("{wrong} of token {} of {}", place + 1, scan.tokens.len())
        } else {
            format!("{wrong} written in entry {} past the last token", place + 1)
        });
    }
    None
}

fn write_oracle(scan: &Scan) -> String {
    let (refusal, offset) = refusal(scan);
    let count = scan.tokens.len();
    let mut out = format!("refusal {refusal}, offset {offset}, {count} tokens");
    for token in &scan.tokens {
        out += &write_token(token.code, token.start, token.len, token.value);
    }
    out
}

fn write_library(tokens: &library::Tokens) -> String {
    let mut out = format!(
        "refusal {}, offset {}, {} tokens",
        tokens.refusal, tokens.offset, tokens.count
    );
    for place in 0..MAX_TOKENS.min(tokens.count as usize) {
        let (code, start, len, value) = tokens.token(place);
        out += &write_token(code, usize::from(start), usize::from(len), value);
    }
    out
}

fn write_token(code: u8, start: usize, len: usize, value: u64) -> String {
    format!("; code {code} at {start} length {len} value {value}")
}
