//! Bars outside parentheses in conditions (document 02, order 1): a selection
//! never refuses them, which shows only if there are some. In DEFINE lines it
//! does (order 6).

use oracle::lines::Word;
use oracle::tokens::bar_outside;
use oracle::{refusal, Edition};

use crate::read;
use crate::report::Tally;

/// Whether a condition that is read has one, by the marks of an accepted file.
pub fn in_read_condition(file: &[u8], marks: &[u8], edition: Edition) -> bool {
    read::branches(file, marks).any(|(word, argument)| match word {
        Word::If | Word::Elseif => bar_outside(&oracle::scan(argument, edition).tokens).is_some(),
        _ => false,
    })
}

/// What a subject lacks if no random file that was accepted had one.
pub fn lack(random: &Tally) -> Option<String> {
    let what = "no file with a bar outside parentheses in a read condition was accepted";
    (random.with_bars == 0).then(|| what.to_string())
}

/// Whether they were refused anywhere else than in a DEFINE line.
pub fn excess(met: &Tally) -> Option<String> {
    let number = refusal::BAR;
    let others = met.met(number) - met.definitions.refused[usize::from(number)];
    let what = "times outside DEFINE lines, but never may be";
    (others > 0).then(|| format!("refusal {number} was met {others} {what}"))
}
