//! The editions beside each other (document 02, order 5). The library is called
//! in both on every input. Each answer is compared with the oracle's, and the
//! two with each other; that shows something only if old spelling comes often.

use std::ops::RangeInclusive;

use oracle::bytes::skip_blanks;
use oracle::lines::Word;
use oracle::tokens::code;
use oracle::{refusal, Edition, EDITIONS};

use crate::read;
use crate::report::{Mismatch, Tally};

/// The refusals with which the new edition meets old spelling.
pub const OF_AN_EXPRESSION: &[u8] = &[refusal::TOKEN];
pub const OF_A_FILE: &[u8] = &[refusal::TOKEN, refusal::ARGUMENT];

/// What counts as often: once in so many answers.
const OFTEN: u64 = 100;

/// The dialect of a call. Bit 0 is the edition; the other bits must not matter,
/// and are those of the pattern in half of the calls, else 0.
pub fn dialect(edition: Edition, pattern: u64) -> u8 {
    let others = match pattern >> 40 & 1 {
        0 => 0,
        _ => (pattern >> 32) as u8 & !1,
    };
    others | u8::from(edition == Edition::Old)
}

/// Patterns with which both editions together get every dialect there is.
pub fn all_patterns() -> impl Iterator<Item = u64> {
    (0..=u64::from(u8::MAX)).map(|others| 1 << 40 | others << 32 | others)
}

/// The answers in both editions: the new one's, then the old one's. A mismatch
/// names the dialect.
pub fn both<T>(
    pattern: u64,
    mut answer: impl FnMut(Edition) -> Result<T, Mismatch>,
) -> Result<[T; 2], Mismatch> {
    let [new, old] = EDITIONS.map(|edition| {
        answer(edition).map_err(|mut mismatch| {
            let dialect = dialect(edition, pattern);
            mismatch.what += &format!(" (dialect {dialect}, {edition:?})");
            mismatch
        })
    });
    Ok([new?, old?])
}

/// Whether the old edition gives all that the new one gives, unless that
/// refuses with one of the numbers for old spelling.
pub fn agree<T: PartialEq>(new: &T, old: &T, new_refusal: u8, of_old_spelling: &[u8]) -> bool {
    of_old_spelling.contains(&new_refusal) || new == old
}

/// The mismatch of two answers that do not agree, as they are written.
pub fn mismatch(what: &str, input: String, new: String, old: String) -> Mismatch {
    Mismatch {
        what: format!("{what} in the old edition than in the new one"),
        input,
        oracle: "agrees with the library in each of them".to_string(),
        library: format!("new: {new}\n           old: {old}"),
    }
}

/// Counts an expression if the old edition read a bare word in it.
pub fn count_expression(expr: &[u8], new_refusal: u8, old_refusal: u8, tally: &mut Tally) {
    // The new edition would have stopped there.
    if new_refusal == refusal::TOKEN && has_bare_word(expr) {
        tally.with_bare_words[usize::from(old_refusal)] += 1;
    }
}

/// Counts the old spelling that is read of a file, by its marks in the old
/// edition.
pub fn count_file(file: &[u8], marks: &[u8], tally: &mut Tally) {
    let (mut bare_words, mut brackets) = (false, false);
    for (word, argument) in read::branches(file, marks) {
        match word {
            Word::If | Word::Elseif => bare_words |= has_bare_word(argument),
            Word::Ifdef | Word::Ifndef => brackets |= skip_blanks(argument).starts_with(b"$"),
            Word::Else | Word::Endif => {}
        }
    }
    tally.with_bare_words[0] += u64::from(bare_words);
    tally.with_brackets += u64::from(brackets);
}

fn has_bare_word(expr: &[u8]) -> bool {
    let tokens = oracle::scan(expr, Edition::Old).tokens;
    tokens.iter().any(|token| token.code == code::BARE)
}

/// What a subject lacks if its random expressions were hardly accepted with a
/// bare word, or never refused with one and each of these numbers.
pub fn lack_in_expressions(random: &Tally, refusals: RangeInclusive<u8>) -> Option<String> {
    let mut refusals = refusals.into_iter();
    let never = refusals.find(|number| random.with_bare_words[usize::from(*number)] == 0);
    never
        .map(|number| format!("refusal {number} was never met after a bare word"))
        .or_else(|| lack_of_bare_words(random))
}

/// What a subject lacks if its random files were hardly accepted with old
/// spelling in what is read.
pub fn lack_in_files(random: &Tally) -> Option<String> {
    lack_of_bare_words(random)
        .or_else(|| lack(random, "accepted with `$(NAME)`", random.with_brackets))
}

fn lack_of_bare_words(random: &Tally) -> Option<String> {
    let accepted = random.with_bare_words[0];
    lack(random, "accepted with a bare word", accepted)
}

fn lack(random: &Tally, what: &str, count: u64) -> Option<String> {
    let total = random.total();
    (count * OFTEN < total).then(|| format!("of {total} answers, {count} only were {what}"))
}
